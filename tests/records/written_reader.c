/* Two letters, then two numbers with their lowest byte first. */
#include "written_reader.h"

#include <string.h>

/* In the order of the fluids' numbers. */
static const char fluid_letters[] = { 'T', 'F' };
static const char kind_letters[] = { 'D', 'B', 'A', 'P', 'N' };

static uint64_t number_at(const uint8_t *bytes)
{
    uint64_t number = 0;
    for (int k = NUMBER_BYTES; k-- > 0;)
        number = number * 256 + bytes[k];
    return number;
}

bool read_record(const uint8_t record[RECORD_BYTES], struct writing *read)
{
    const char *fluid = memchr(fluid_letters, record[0], sizeof fluid_letters);
    const char *kind = memchr(kind_letters, record[1], sizeof kind_letters);
    if (fluid == NULL || kind == NULL)
        return false;
    *read = (struct writing){
        .kind = (uint32_t)*kind,
        .fluid = (uint32_t)(fluid - fluid_letters),
        .first = number_at(record + 2),
        .second = number_at(record + 2 + NUMBER_BYTES),
    };
    return true;
}
