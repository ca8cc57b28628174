/* The stored pairs, read from first to last beside what both implementations give. */
#include "kelvins.h"

#include "../independent/bits.h"
#include "../independent/equation.h"
#include "../independent/refusals.h"

#include <string.h>

enum { LINE_ROOM = 128 };

static const char header[] = "fluid T rounds liquid vapour pressure\n";

static double vapour_pressure(const struct fluid *fluid, double T, struct pair pair)
{
    struct isotherm isotherm = isotherm_at(fluid, T);
    return isotherm_phase(&isotherm, pair.vapour).p;
}

/* A refusal has its code alone. */
static void print_kelvin(char line[LINE_ROOM], uint32_t fluid, double T, const struct proposal *proposal)
{
    if (proposal->code != ANSWERED)
        snprintf(line, LINE_ROOM, "%" PRIu32 " %.0f code %" PRIu64 "\n", fluid, T, proposal->code);
    else
        snprintf(line, LINE_ROOM, "%" PRIu32 " %.0f %d %016" PRIx64 " %016" PRIx64 " %.17g\n", fluid, T, proposal->rounds,
                 bits_of(proposal->pair.liquid), bits_of(proposal->pair.vapour),
                 vapour_pressure(fluid_numbered(fluid), T, proposal->pair));
}

/* The two numbers of a line that are bits. */
static bool read_pair(const char *line, struct proposal *stored)
{
    uint64_t liquid, vapour;
    if (sscanf(line, "%*u %*u %*u %" SCNx64 " %" SCNx64, &liquid, &vapour) != 2)
        return false;
    *stored = (struct proposal){ .code = ANSWERED, .pair = { number_of(liquid), number_of(vapour) } };
    return true;
}

/* The package's pair is compared with the stored one, not with the independent implementation's. */
static bool package_writes(const struct memory *memory, uint32_t fluid, double T, const char *line)
{
    struct order order = { .fluid = fluid, .T = bits_of(T), .length = PAIR_BYTES };
    struct proposal stored;
    struct result wanted, got[ENDS];
    if (!read_pair(line, &stored))
        return false;
    expect_result(&order, &stored, &wanted);
    return does_as_wanted(memory, &order, &wanted, got) && accepts_its_own(&order, &got[0]);
}

static void compare_kelvin(const struct memory *memory, uint32_t fluid, double T, FILE *file, struct kelvins *kelvins)
{
    char line[LINE_ROOM] = "", wanted[LINE_ROOM];
    struct proposal proposal = propose(fluid, T, PAIR_BYTES);
    print_kelvin(wanted, fluid, T, &proposal);
    bool read = fgets(line, sizeof line, file) != NULL;
    note(&kelvins->stored[fluid], read && strcmp(line, wanted) == 0);
    note(&kelvins->written[fluid], read && package_writes(memory, fluid, T, line));
}

bool compare_kelvins(const struct memory *memory, const char *name, struct kelvins *kelvins)
{
    char line[LINE_ROOM];
    FILE *file = fopen(name, "r");
    if (file == NULL)
        return false;
    bool headed = fgets(line, sizeof line, file) != NULL && strcmp(line, header) == 0;
    for (uint32_t fluid = 0; fluid < FLUIDS; fluid++)
        for (double T = ceil(fluid_numbered(fluid)->T.least); T < fluid_numbered(fluid)->Tc; T++)
            compare_kelvin(memory, fluid, T, file, kelvins);
    note(&kelvins->end, headed && fgets(line, sizeof line, file) == NULL);
    fclose(file);
    return true;
}

void write_kelvins(FILE *file)
{
    char line[LINE_ROOM];
    fputs(header, file);
    for (uint32_t fluid = 0; fluid < FLUIDS; fluid++)
        for (double T = ceil(fluid_numbered(fluid)->T.least); T < fluid_numbered(fluid)->Tc; T++) {
            struct proposal proposal = propose(fluid, T, PAIR_BYTES);
            print_kelvin(line, fluid, T, &proposal);
            fputs(line, file);
        }
}

static void count_lines(const struct tally *tally, const char *fluid, const char *what, struct sum *sum)
{
    if (count_tally(sum, tally, true))
        return;
    printf("%s, every whole kelvin, %s", fluid, what);
    show_failure(tally, true);
}

void count_kelvins(const struct kelvins *kelvins, struct sum *sum)
{
    for (int fluid = 0; fluid < FLUIDS; fluid++) {
        count_lines(&kelvins->stored[fluid], fluid_name(fluid), "stored", sum);
        count_lines(&kelvins->written[fluid], fluid_name(fluid), "by the package", sum);
    }
    count_lines(&kelvins->end, "both fluids", "the file's first line and its end", sum);
}
