/* The printed tables of states: 003's Table 3 and 001's Table 7. */
#include "../independent/bits.h"
#include "../independent/equation.h"
#include "check.h"

#include <stdlib.h>
#include <string.h>

enum { COLUMNS = 6, TABLE3_ROWS = 6, TABLE7_ROWS = 8, DIFFERENCES = 8 };

/* A printed number's property, and how many of its unit are in the one that it is printed in. */
struct column {
    const char *name;
    enum property property;
    double unit;
};

/* T in K and ρ in mol/dm³. */
struct printed {
    double T;
    const char *rho, *number[COLUMNS];
};

static double density_of(const struct printed *row)
{
    return strtod(row->rho, NULL);
}

static double number_at(const struct fluid *f, const struct column *column, double T, double rho)
{
    return property_at(f, column->property, T, rho).value / column->unit;
}

/* ---- 003, Table 3: MPa, J/(mol K), m/s */

/* Four columns, of which the last is followed by one without a name. */
static const struct column columns3[COLUMNS] = {
    { "p", PRESSURE, 1e6 },
    { "cv", ISOCHORIC_HEAT_CAPACITY, 1 },
    { "cp", ISOBARIC_HEAT_CAPACITY, 1 },
    { "w", SOUND_SPEED, 1 },
};

static const struct printed table3[TABLE3_ROWS] = {
    { 250, "11.3", { "7.998072", "127.995", "176.671", "971.213" } },
    { 400, "8.0", { "2.017058", "151.601", "226.229", "326.167" } },
    { 448, "3.92", { "3.970007", "189.859", "23758.6", "73.1890" } },
    { 250, "0", { "0.0", "96.4517", "104.766", "129.781" } },
    { 420, "1.0", { "2.282553", "155.316", "218.413", "112.579" } },
    { 450, "7.0", { "8.304540", "160.706", "237.245", "256.123" } },
};

static void check_table3(void)
{
    for (int i = 0; i < TABLE3_ROWS; i++)
        for (int k = 0; columns3[k].name != NULL; k++) {
            const struct printed *row = &table3[i];
            double value = number_at(&r245ca, &columns3[k], row->T, density_of(row));
            check(prints_as(row->number[k], value), "Table 3: %s %s at %g K, %s", columns3[k].name,
                  row->number[k], row->T, row->rho);
        }
}

/* ---- 001, Table 7: MPa, kJ/mol, kJ/(mol K), m/s */

enum { P, H, S, CV, CP, W };

static const struct column columns7[COLUMNS] = {
    [P] = { "p", PRESSURE, 1e6 },
    [H] = { "h", ENTHALPY, 1e3 },
    [S] = { "s", ENTROPY, 1e3 },
    [CV] = { "cv", ISOCHORIC_HEAT_CAPACITY, 1e3 },
    [CP] = { "cp", ISOBARIC_HEAT_CAPACITY, 1e3 },
    [W] = { "w", SOUND_SPEED, 1 },
};

/* The first four are saturated states: a liquid and a vapour of one temperature and pressure. */
static const struct printed table7[TABLE7_ROWS] = {
    { 250, "10.90057", { "0.01646009", "22.9621", "0.119346", "0.114156", "0.163322", "873.234" } },
    { 250, "0.008011195", { "0.01646009", "51.9442", "0.235275", "0.0950838", "0.103970", "128.702" } },
    { 400, "7.151800", { "2.210563", "51.5591", "0.206989", "0.147755", "0.255135", "235.471" } },
    { 400, "1.068455", { "2.210563", "65.2749", "0.241278", "0.148819", "0.234947", "106.449" } },
    { 250, "11", { "7.454017", "23.3683", "0.118254", "0.114536", "0.162060", "908.590" } },
    { 250, "0.005", { "0.01031829", "51.9792", "0.239262", "0.0949026", "0.103569", "129.147" } },
    { 400, "9", { "33.14725", "50.9308", "0.196139", "0.144117", "0.188486", "593.178" } },
    { 400, "0.5", { "1.352988", "67.9067", "0.250859", "0.138842", "0.162544", "135.712" } },
};

/*
 * What is worked where the printed digits are not met, and its cause: a density that is printed as the row's and gives the
 * printed number, or the number with another R, which the printed one rounds. docs/CHECKED.md has the same.
 */
static const struct difference {
    int row, column;
    const char *written;
    uint64_t bits;
    const char *density, *with_other_R;
} differences[DIFFERENCES] = {
    { 0, P, "0.01658386", 0x40d031f746ff3996, "10.9005682676", NULL },
    { 0, CV, "0.114155", 0x405c89f248d44cc0, NULL, "0.114155535" },
    { 0, W, "873.235", 0x408b49e0be260b5e, "10.9005682676", NULL },
    { 1, CV, "0.0950836", 0x4057c55a33bf4ade, NULL, "0.095083753" },
    { 2, P, "2.210562", 0x4140dd80e4743fc9, "7.15180028232", NULL },
    { 4, CP, "0.162059", 0x406441e7257d3326, NULL, "0.162059589" },
    { 5, CV, "0.0949024", 0x4057b9c1b63164eb, NULL, "0.094902571" },
    { 6, CP, "0.188485", 0x40678f87ef97f8b0, NULL, "0.188485509" },
};

static const struct difference *difference_at(int row, int column)
{
    for (int i = 0; i < DIFFERENCES; i++)
        if (differences[i].row == row && differences[i].column == column)
            return &differences[i];
    return NULL;
}

static double worked(int row, int column)
{
    return property_at(&r245fa, columns7[column].property, table7[row].T, density_of(&table7[row])).value;
}

/* Worked as recorded, and not as printed. */
static void check_difference(const struct difference *d)
{
    const struct printed *row = &table7[d->row];
    const struct column *column = &columns7[d->column];
    double value = worked(d->row, d->column);
    check(bits_of(value) == d->bits && prints_as(d->written, value / column->unit)
              && strcmp(d->written, row->number[d->column]) != 0,
          "Table 7: %s %s at %g K, %s is worked as %s", column->name, row->number[d->column], row->T, row->rho,
          d->written);
}

static void check_table7(void)
{
    int differing = 0;
    for (int i = 0; i < TABLE7_ROWS; i++)
        for (int k = 0; k < COLUMNS; k++) {
            const struct printed *row = &table7[i];
            const struct difference *d = difference_at(i, k);
            if (d != NULL) {
                check_difference(d);
                differing++;
                continue;
            }
            check(prints_as(row->number[k], worked(i, k) / columns7[k].unit), "Table 7: %s %s at %g K, %s",
                  columns7[k].name, row->number[k], row->T, row->rho);
        }
    check(differing == DIFFERENCES, "Table 7: %d of %d numbers differ", differing, TABLE7_ROWS * COLUMNS);
}

/* ---- why eight differ */

/* 001's saturated states have their densities printed rounded. */
static void check_rounded_density(const struct difference *d)
{
    const struct printed *row = &table7[d->row];
    const struct column *column = &columns7[d->column];
    double rho = strtod(d->density, NULL);
    check(prints_as(row->rho, rho) && prints_as(row->number[P], number_at(&r245fa, &columns7[P], row->T, rho))
              && prints_as(row->number[d->column], number_at(&r245fa, column, row->T, rho)),
          "Table 7: at %g K the density %s is printed as %s and gives %s %s", row->T, d->density, row->rho,
          column->name, row->number[d->column]);
}

/* cv or cp where the ideal gas's heat capacity is equation 9 times 8.314472, all else being the same. */
static double with_other_R(int row, int column)
{
    double ideal = property_at(&r245fa, ISOBARIC_HEAT_CAPACITY, table7[row].T, 0).value;
    return (worked(row, column) + (ideal / r245fa.R * 8.314472 - ideal)) / columns7[column].unit;
}

/* Every heat capacity of the table is as printed then. */
static void check_other_R(int row)
{
    static const int heat_capacities[] = { CV, CP };
    for (size_t i = 0; i < sizeof heat_capacities / sizeof *heat_capacities; i++) {
        int column = heat_capacities[i];
        check(prints_as(table7[row].number[column], with_other_R(row, column)),
              "Table 7: with another R %s is %s at %g K, %s", columns7[column].name,
              table7[row].number[column], table7[row].T, table7[row].rho);
    }
}

static void check_causes(void)
{
    for (int i = 0; i < DIFFERENCES; i++) {
        const struct difference *d = &differences[i];
        if (d->density != NULL)
            check_rounded_density(d);
        else
            check(prints_as(d->with_other_R, with_other_R(d->row, d->column)),
                  "Table 7: with another R %s is %s where %s is printed", columns7[d->column].name,
                  d->with_other_R, table7[d->row].number[d->column]);
    }
    for (int row = 0; row < TABLE7_ROWS; row++)
        check_other_R(row);
    /* The density that explains p and w does not do so for h, which agrees at the printed one. */
    check(prints_as("22.9620", number_at(&r245fa, &columns7[H], 250, 10.9005682676)),
          "Table 7: h is worked as 22.9620 at 250 K, 10.9005682676");
}

void check_tables(void)
{
    check_table3();
    check_table7();
    check_causes();
}
