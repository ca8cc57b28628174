/* The C calls in C, in the package's form: a record read, its inputs tested, the pressure worked or the density searched
 * (searches.h); a run of records, one after the other; and a record written. */
#include "put.h"
#include "same_form.c"

uint32_t NAMED(answer)(const uint8_t *record, size_t record_len, uint8_t *out, size_t out_len);
uint32_t NAMED(answers)(const uint8_t *records, size_t records_len, uint8_t *out, size_t out_len, uint32_t *codes,
                        size_t codes_len);
uint32_t NAMED(write)(uint32_t kind, uint32_t fluid, uint64_t first, uint64_t second, uint8_t *buffer, size_t buffer_len,
                      size_t place);

static double number_at(const uint8_t *bytes) {
    uint64_t bits = 0;
    for (int k = 8; k-- > 0;)
        bits = bits << 8 | bytes[k];
    double number;
    memcpy(&number, &bits, sizeof number);
    return number;
}

/* A mark's first letter names the fluid: the place is the fluid's number. */
static const char letters[FLUIDS] = {'T', 'F'};

/* FLUIDS where it names none. */
static uint32_t number_lettered(char letter) {
    uint32_t number = 0;
    while (number < FLUIDS && letters[number] != letter)
        number++;
    return number;
}

/* The search's own refusals, 8 and 12, are met by no record. */
static uint32_t search(uint32_t number, double T, double P, int above, uint8_t *out) {
    double rho = NAMED(plain)(number, T, P, fluids[number].top, (uint32_t)above);
    return isnan(rho) ? 8 : put_number(out, rho);
}

static uint32_t input_code(const struct fluid *fluid, double T, double x, const struct range *second, uint32_t outside) {
    if (!isfinite(T) || !isfinite(x))
        return 2;
    if (!in_range(&fluid->T, T))
        return 3;
    return in_range(second, x) ? 0 : outside;
}

static uint32_t work(uint32_t number, char kind, double T, double x, uint8_t *out) {
    if (kind != 'D')
        return search(number, T, x, kind == 'A', out);
    struct state s = state_at(&fluids[number], T, worked(x));
    double p = state_pressure(&s);
    return isnan(p) ? 12 : put_number(out, p);
}

uint32_t NAMED(answer)(const uint8_t *record, size_t record_len, uint8_t *out, size_t out_len) {
    if (record_len != 18)
        return 15;
    uint32_t number = number_lettered((char)record[0]);
    char kind = (char)record[1];
    if (number == FLUIDS || (kind != 'D' && kind != 'B' && kind != 'A' && kind != 'P' && kind != 'N'))
        return 14;
    if (kind == 'N')
        return 1;
    const struct fluid *fluid = &fluids[number];
    double T = number_at(record + 2), x = number_at(record + 10);
    uint32_t code =
        kind == 'D' ? input_code(fluid, T, x, &fluid->rho, 4) : input_code(fluid, T, x, &fluid->P, 5);
    if (code != 0)
        return code;
    return out_len < 8 ? 7 : work(number, kind, T, x, out);
}

/* A shorter piece at the end is a record too. */
uint32_t NAMED(answers)(const uint8_t *records, size_t records_len, uint8_t *out, size_t out_len, uint32_t *codes,
                        size_t codes_len) {
    size_t count = records_len / 18 + (records_len % 18 > 0);
    if (out_len / 8 < count || codes_len < count)
        return 7;
    if (count > 4096)
        return 18;
    for (size_t k = 0; k < count; k++) {
        size_t left = records_len - 18 * k;
        codes[k] = NAMED(answer)(records + 18 * k, left < 18 ? left : 18, out + 8 * k, 8);
    }
    return 0;
}

static int known_kind(uint32_t letter) {
    return letter == 'D' || letter == 'B' || letter == 'A' || letter == 'P' || letter == 'N';
}

/* A record without a reading has zeros for its numbers. */
static void put_record(uint32_t kind, uint32_t fluid, uint64_t first, uint64_t second, uint8_t *out) {
    out[0] = (uint8_t)letters[fluid];
    out[1] = (uint8_t)kind;
    put_word(out + 2, kind == 'N' ? 0 : first);
    put_word(out + 10, kind == 'N' ? 0 : second);
}

/* place + 18 might pass 2^64. */
uint32_t NAMED(write)(uint32_t kind, uint32_t fluid, uint64_t first, uint64_t second, uint8_t *buffer, size_t buffer_len,
                      size_t place) {
    if (!known_kind(kind))
        return 14;
    if (fluid >= FLUIDS)
        return 17;
    if (buffer_len < 18 || place > buffer_len - 18)
        return 7;
    put_record(kind, fluid, first, second, buffer + place);
    return 0;
}
