/*
 * Verriblom: R-245ca and R-245fa, by records: answered one at a time, or a run of them at once; and
 * written. And saturation pairs: found, and judged.
 *
 * A record is 18 bytes: a two-letter mark and two binary64 numbers, the lowest byte first. The
 * mark's first letter says which fluid is asked, T for R-245ca and F for R-245fa; the second says
 * what the numbers are.
 *
 *     TD FD   temperature, density     asks for the pressure
 *     TB FB   temperature, pressure    asks for the density, searched from below (from zero up)
 *     TA FA   temperature, pressure    asks for the density, searched from above (from the top down)
 *     TP FP   temperature, pressure    no side given: taken from below
 *     TN FN   no reading: refused with 1, its sixteen bytes are not looked at
 *
 * Units: K, mol/dm3, Pa. Each fluid has its own ranges, ends included (README.md).
 */
#ifndef VERRIBLOM_H
#define VERRIBLOM_H

#include <stddef.h>
#include <stdint.h>

#ifdef __cplusplus
extern "C" {
#endif

#define VERRIBLOM_RECORD_BYTES 18
#define VERRIBLOM_NUMBER_BYTES 8
/* the two densities of a saturation pair */
#define VERRIBLOM_PAIR_BYTES 16
/* the most records of one run */
#define VERRIBLOM_MOST_RECORDS 4096

/* R-245ca */
#define VERRIBLOM_MARK_TEMPERATURE_DENSITY "TD"
#define VERRIBLOM_MARK_FROM_BELOW "TB"
#define VERRIBLOM_MARK_FROM_ABOVE "TA"
#define VERRIBLOM_MARK_NO_SIDE "TP"
#define VERRIBLOM_MARK_NO_READING "TN"

/* R-245fa */
#define VERRIBLOM_R245FA_MARK_TEMPERATURE_DENSITY "FD"
#define VERRIBLOM_R245FA_MARK_FROM_BELOW "FB"
#define VERRIBLOM_R245FA_MARK_FROM_ABOVE "FA"
#define VERRIBLOM_R245FA_MARK_NO_SIDE "FP"
#define VERRIBLOM_R245FA_MARK_NO_READING "FN"

/* The kind of a record that verriblom_write writes: the ASCII code of the mark's second letter. */
enum verriblom_kind {
    VERRIBLOM_KIND_TEMPERATURE_DENSITY = 68, /* D */
    VERRIBLOM_KIND_FROM_BELOW = 66,          /* B */
    VERRIBLOM_KIND_FROM_ABOVE = 65,          /* A */
    VERRIBLOM_KIND_NO_SIDE = 80,             /* P */
    VERRIBLOM_KIND_NO_READING = 78           /* N */
};

/* Its fluid, which the mark's first letter says; and that of a saturation pair. */
enum verriblom_fluid {
    VERRIBLOM_R245CA = 0, /* T */
    VERRIBLOM_R245FA = 1  /* F */
};

/*
 * The code of a record: what verriblom_answer returns, and what verriblom_answers puts into its code
 * list. Where several refusals apply the first of 15, 14, 1, 2, 3, 4, 5, 7 counts. "Tested" says
 * which records are tested for the code, "can occur" which ones can meet it, by the mark's second
 * letter; N has no reading, and both fluids are alike in this. 8, 9 and 12 are tested as the work
 * goes on, and it is proved that no record meets them; nor is any number returned that does not
 * stand here (docs/NO-ANSWER.md).
 *
 * verriblom_answers itself returns 0, 7 or 18, about the run as a whole. verriblom_write returns only
 * 0, 7, 14 or 17, about what it is to write; where several refusals apply the first of 14, 17, 7
 * counts. verriblom_saturation returns only 0, 2, 3, 7, 13, 17 or 20, and verriblom_accept only 0, 2,
 * 3, 4, 12, 17 or 19, in the order that stands at each of them; no record meets 13, 19 or 20.
 */
enum verriblom_code {
    /* the first eight bytes of the output hold the number. Can occur: D, B, A, P. Of a run: each
     * record has its code. Of writing: the buffer holds the record. Can occur: D, B, A, P, N. Of
     * saturation: the first sixteen bytes of the output hold the pair. Of a proposed pair: it is
     * accepted */
    VERRIBLOM_ANSWERED = 0,
    /* the record says "no reading". Tested: every record of 18 bytes. Can occur: N */
    VERRIBLOM_NO_READING = 1,
    /* an input number is NaN or infinite. Tested: D, B, A, P; saturation; a proposed pair. Can occur:
     * the same */
    VERRIBLOM_INPUT_NOT_FINITE = 2,
    /* the temperature is outside the fluid's range. Tested: D, B, A, P; saturation; a proposed pair.
     * Can occur: the same */
    VERRIBLOM_TEMPERATURE_OUTSIDE = 3,
    /* the density is outside the fluid's range. Tested: D; either one of a proposed pair. Can occur:
     * the same */
    VERRIBLOM_DENSITY_OUTSIDE = 4,
    /* the pressure is outside the fluid's range. Tested: B, A, P. Can occur: the same */
    VERRIBLOM_PRESSURE_OUTSIDE = 5,
    /* the output has less than eight bytes. Tested: D, B, A, P. Can occur: the same, but for the
     * records of a run, each of which has eight. Of a run: the output has less than eight bytes for
     * each record, or the code list less than a place. Of writing: the buffer has less than 18 bytes
     * from the place on. Tested: D, B, A, P, N, after 14 and 17. Can occur: the same. Of saturation:
     * the output has less than sixteen bytes. Tested: after 3 and before 13. Can occur: the same */
    VERRIBLOM_OUTPUT_TOO_SHORT = 7,
    /* no cell of the search has the pressure. Tested: B, A, P. Can occur: never */
    VERRIBLOM_NO_CELL = 8,
    /* 23 halvings did not end at neighbours. Tested: B, A, P. Can occur: never */
    VERRIBLOM_NOT_NEIGHBOURS = 9,
    /* a worked value is not finite. Tested: D, B, A, P; saturation. Can occur: never. Of a proposed
     * pair: tested where the densities are ordered. Can occur: with a vapour of almost no density */
    VERRIBLOM_WORK_NOT_FINITE = 12,
    /* the temperature is above the critical one. Tested: saturation, after 7; no record. Can occur:
     * the same */
    VERRIBLOM_ABOVE_CRITICAL = 13,
    /* the first two bytes are no mark. Tested: every record of 18 bytes. Can occur: any other mark.
     * Of writing: the kind is none of the five. Tested: every kind, first of all. Can occur: any
     * other kind */
    VERRIBLOM_UNKNOWN_MARK = 14,
    /* the record has not exactly 18 bytes. Tested: every record. Can occur: any other length */
    VERRIBLOM_RECORD_CUT_SHORT = 15,
    /* the fluid's number is unknown. Tested: no record, as every known mark names a fluid. Can
     * occur: never. Of writing: it is neither 0 nor 1. Tested: D, B, A, P, N, after 14. Can occur:
     * the same. Of saturation and of a proposed pair: the same, tested first */
    VERRIBLOM_UNKNOWN_FLUID = 17,
    /* a run has more than 4,096 records. Tested: every run, after 7; no record. Can occur: such runs */
    VERRIBLOM_TOO_MANY_RECORDS = 18,
    /* a proposed pair is not accepted. Tested: its temperature and the order of its densities after
     * 4, what is worked of it after 12. Can occur: the same */
    VERRIBLOM_NOT_ACCEPTED = 19,
    /* no saturation pair was found. Tested: saturation, last of all. Can occur: at the critical
     * temperature, and very close below it */
    VERRIBLOM_GAVE_UP = 20
};

/*
 * Answers the record of record_len bytes. Returns 0 and puts the bits of the pressure in Pa or of
 * the density in mol/dm3 into the first eight bytes of out, the lowest first; or returns the
 * refusal's number and leaves out as it was. No byte of out after the eighth ever changes, and no
 * byte of the record does.
 *
 * record and out point to that many bytes, do not overlap, and are not null, also where a length
 * is 0. Nothing is kept between calls, so that calls may run at the same time.
 */
uint32_t verriblom_answer(const uint8_t *record, size_t record_len, uint8_t *out, size_t out_len);

/*
 * Answers a run of records, one after the other in records_len bytes; a piece of less than 18 bytes
 * at the end counts as a record and gets 15. Returns 0, and for each record in turn, n of them, puts
 * its code into codes, and the bits of its number into its own eight bytes of out, which stay as they
 * were where the record is refused: what verriblom_answer does with that record and those eight
 * bytes. No byte of out after 8 n and no place of codes after n ever changes, and no byte of the
 * records does. No records at all are answered with 0.
 *
 * Returns 7 where out has less than 8 n bytes or codes less than n places, or else 18 where n is
 * above 4,096; nothing is then written, neither to out nor to codes. A longer run is the caller's to
 * cut, after whole records.
 *
 * out_len counts bytes and codes_len places of codes. Whatever lengths are claimed, nothing
 * overflows. The pointers are as above: they do not overlap, and are not null.
 */
uint32_t verriblom_answers(const uint8_t *records, size_t records_len, uint8_t *out, size_t out_len,
                           uint32_t *codes, size_t codes_len);

/*
 * Writes a record into 18 bytes of buffer, from byte number place on, the first being number 0: the
 * mark of the kind and the fluid, then the 64 bits of the first number and those of the second, the
 * lowest byte first. Returns 0. No other byte of buffer ever changes. The bits are written as they
 * are: the numbers are tested for nothing, and a NaN keeps all its bits. A record that says "no
 * reading" carries no numbers: it is written with sixteen zero bytes, whatever bits are handed over.
 *
 * Returns 14 where kind is none of enum verriblom_kind, or else 17 where fluid is none of enum
 * verriblom_fluid, or else 7 where buffer has less than 18 bytes from place on; nothing is then
 * written.
 *
 * buffer_len counts bytes. Whatever length and place are claimed, nothing overflows. buffer points to
 * that many bytes and is not null, also where its length is 0.
 */
uint32_t verriblom_write(uint32_t kind, uint32_t fluid, uint64_t first, uint64_t second,
                         uint8_t *buffer, size_t buffer_len, size_t place);

/*
 * The saturation pair of a fluid at the temperature t: the densities of the liquid and of the vapour
 * that stand beside each other. Returns 0 and puts the bits of the liquid's density and then of the
 * vapour's, mol/dm3, into the first sixteen bytes of out, the lowest byte of each first; or returns
 * the refusal's number and leaves out as it was. No byte of out after the sixteenth ever changes.
 * verriblom_accept accepts what it puts there: it is the first such pair of a sequence of at most 41
 * that begins with the two estimates (docs/SCOPE.md).
 *
 * Returns 17 where fluid is none of enum verriblom_fluid, or else 2 where t is not finite, 3 where it
 * is outside the fluid's range, 7 where out has less than sixteen bytes, 13 where t is above the
 * critical temperature, 20 where no pair of the sequence is accepted: so at the critical temperature
 * itself, and very close below it. 12 is tested as well, and it is proved that it never occurs.
 *
 * out points to out_len bytes and is not null, also where its length is 0. The pressure of the pair is
 * that of a D record at t and either density.
 */
uint32_t verriblom_saturation(uint32_t fluid, double t, uint8_t *out, size_t out_len);

/*
 * Whether a liquid's and a vapour's density, mol/dm3, are a saturation pair of a fluid at the
 * temperature t, whoever proposes them. Returns 0, and so accepts the pair, exactly if t is below the
 * critical temperature, 0 < vapour < critical density < liquid, both states are stable (Q > 0), their
 * pressures differ by at most 0.01 Pa, and their values 1 + I0 + S0 + S1, which is the Gibbs energy
 * over RT, by at most 1e-9, all in the package's own arithmetic.
 *
 * Returns 17 where fluid is none of enum verriblom_fluid, or else 2 where one of the three numbers is
 * not finite, 3 where t is outside the fluid's range, 4 where a density is, 19 where t is not below
 * the critical temperature or the densities are not so ordered, 12 where a worked value is not finite,
 * 19 for the rest.
 */
uint32_t verriblom_accept(uint32_t fluid, double t, double liquid, double vapour);

#ifdef __cplusplus
}
#endif

#endif
