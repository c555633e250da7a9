/* Sign determination from Tarski queries: the proved calls of libtarski.a, for C99 and later and for C++, on x86-64 Linux.
 *
 * Every call answers whatever numbers it is given: with a result, or with a refusal number from 1 to 18 (enum tarski_refusal); 0 means not refused.
 * A refusal leaves lent memory as it was, but for 8, 9 and 10, which close the run's record. No call allocates, blocks or keeps a pointer.
 *
 * What the caller owes, since no call can test it:
 *   - a pointer with a length points to that many elements; NULL is allowed where the length is 0. Every other pointer points to its record. All are
 *     aligned as their type is.
 *   - memory that a call may write (a pointer without const) overlaps no other memory lent to the same call.
 *   - the record lent to tarski_start need not be initialised: what it held has no effect, and a start refused by 3 leaves it as it was. Every other
 *     call gets a record that tarski_start began, or a copy of one. Other initialised bytes do no harm, but then the answers say nothing of a run.
 *
 * The library has no state of its own: any number of threads may call it, each with records of its own, or with shared ones that none of them writes.
 * A call uses at most TARSKI_MOST_STACK bytes of stack. Records and results are plain memory: they may be copied and moved. */
#ifndef TARSKI_H
#define TARSKI_H

#include <stddef.h>
#include <stdint.h>

#ifdef __cplusplus
extern "C" {
#endif

/* The version of this header and of the library beside it. New in 0.7.0: a point that stands on a card more than once counts once in every query, where it
 * counted as often as it stands; no declaration has changed. In 0.6.0: cards of points in the plane, which every call on cards but tarski_value takes,
 * tarski_value_at and the refusal 18; TARSKI_LONGEST_CARD has grown, and TARSKI_LONGEST_LINE_CARD is what it was. In 0.5.0: tarski_query_all and
 * tarski_ask_all. Since 0.4.0 tarski_query and tarski_ask give struct tarski_counts, in which `number` is what they gave before as struct tarski_number. */
#define TARSKI_VERSION_MAJOR 0
#define TARSKI_VERSION_MINOR 7
#define TARSKI_VERSION_PATCH 0
#define TARSKI_VERSION "0.7.0"

/* The most polynomials and the most points of a card, and the most rows of a run. */
#define TARSKI_MOST_POLYNOMIALS 8
#define TARSKI_MOST_POINTS 64
#define TARSKI_MOST_ROWS 64
/* The most questions that a run asks. */
#define TARSKI_MOST_QUESTIONS 593
/* The longest card of either kind, in bytes; read one byte more from a stream, or a card that is too long looks sound. */
#define TARSKI_LONGEST_CARD 590
/* The longest card of points on the line: tarski_write and tarski_draw make no other, and need no more room. */
#define TARSKI_LONGEST_LINE_CARD 318
/* The most bytes of stack that a call uses, its return address included. */
#define TARSKI_MOST_STACK 32768

/* ---- refusals */

enum tarski_refusal {
    TARSKI_NOT_REFUSED = 0,
    TARSKI_WRONG_LENGTH = 1,      /* the card is shorter or longer than it says, or a list of coefficients is not as long as the degrees say */
    TARSKI_WRONG_BYTE = 2,        /* byte 0 or byte 3 is wrong */
    TARSKI_WRONG_COUNT = 3,       /* s is not 1 to 8, or n is above 64 */
    TARSKI_WRONG_OFFSET = 4,      /* an offset is not where its body begins */
    TARSKI_WRONG_COEFFICIENT = 5, /* a coefficient is outside -1,000,000 to 1,000,000 */
    TARSKI_WRONG_POINT = 6,       /* a point is outside -100 to 100, or falls */
    TARSKI_LATE = 7,              /* an answer after the run was done or closed; rows wanted before it is done or after it closed */
    TARSKI_BAD_FIRST = 8,         /* the first answer is below 0 or above 64 */
    TARSKI_BAD_LATER = 9,         /* a later answer is outside -n .. n */
    TARSKI_NO_COUNTS = 10,        /* a round's answers fit no counts */
    TARSKI_WRONG_LIST = 11,       /* a list does not rise, is too long or has a pattern above 3^s - 1, or there are not as many numbers */
    TARSKI_NO_SOLUTION = 12,      /* no whole numbers with absolute values adding up to at most 64 have these queries */
    TARSKI_WRONG_PRODUCT = 13,    /* the product number is above 3^s - 1 */
    TARSKI_PAST_LAST = 14,        /* there is no polynomial, or no row, at this position */
    TARSKI_TOO_SHORT = 15,        /* an output slice is too short */
    TARSKI_WRONG_DEGREE = 16,     /* a degree is above 6 */
    TARSKI_ZERO_TOP = 17,         /* the top coefficient is 0 though the degree is not */
    TARSKI_WRONG_TERMS = 18       /* of a polynomial in the plane: over 9 terms, powers above 6 together, terms that do not rise, or a coefficient of 0 */
};

/* What a refusal number means, in words. */
static inline const char *tarski_refusal_text(uint16_t refusal) {
    switch (refusal) {
    case TARSKI_NOT_REFUSED: return "not refused";
    case TARSKI_WRONG_LENGTH: return "the card is shorter or longer than it says, or a list of coefficients is not as long as the degrees say";
    case TARSKI_WRONG_BYTE: return "byte 0 or byte 3 is wrong";
    case TARSKI_WRONG_COUNT: return "s is not 1 to 8, or n is above 64";
    case TARSKI_WRONG_OFFSET: return "an offset is not where its body begins";
    case TARSKI_WRONG_COEFFICIENT: return "a coefficient is outside -1,000,000 to 1,000,000";
    case TARSKI_WRONG_POINT: return "a point is outside -100 to 100, or falls";
    case TARSKI_LATE: return "an answer after the run was done or closed; rows wanted before it is done or after it closed";
    case TARSKI_BAD_FIRST: return "the first answer is below 0 or above 64";
    case TARSKI_BAD_LATER: return "a later answer is outside -n .. n";
    case TARSKI_NO_COUNTS: return "a round's answers fit no counts";
    case TARSKI_WRONG_LIST:
        return "the solver's list does not rise, is over 64 long, has a pattern above 3^s - 1, or there are not as many numbers as patterns";
    case TARSKI_NO_SOLUTION: return "no whole numbers with absolute values adding up to at most 64 have these queries";
    case TARSKI_WRONG_PRODUCT: return "the product number is above 3^s - 1";
    case TARSKI_PAST_LAST: return "there is no polynomial, or no row, at this position";
    case TARSKI_TOO_SHORT: return "an output slice is too short";
    case TARSKI_WRONG_DEGREE: return "a degree is above 6";
    case TARSKI_ZERO_TOP: return "the top coefficient is 0 though the degree is not";
    case TARSKI_WRONG_TERMS:
        return "of a polynomial in the plane: over 9 terms, powers above 6 together, terms that do not rise, or a coefficient of 0";
    default: return "no such refusal";
    }
}

/* ---- patterns and products: two types, so that neither is taken for the other; digit j of the number to the base 3 belongs to polynomial j */

/* Signs of the polynomials: 0 for the sign 0, 1 for +, 2 for -. */
struct tarski_pattern {
    uint16_t number;
};

/* A product of powers of the polynomials: the powers 0, 1 and 2. */
struct tarski_product {
    uint16_t number;
};

/* ---- cards and queries: points on the line and polynomials in X where byte 0 is 1, points in the plane and polynomials in X and Y where it is 2
 *
 * The points of a card are a set: each distinct point, by X and Y, counts once in every query, however often it stands on the card. Distinct points with
 * the same signs count one by one. */

/* What a card says of itself: `points` is its byte 2, repeats and all. No polynomials and no points where it is refused. */
struct tarski_card {
    size_t polynomials;
    size_t points;
    uint16_t refusal;
};

/* The value of a polynomial; 0 where it is refused. */
struct tarski_number {
    int64_t number;
    uint16_t refusal;
};

/* The Tarski query of a product: at how many points it is positive, at how many negative and at how many zero, each distinct point counted once, so that
 * they add up to the distinct points; and the number that the panel shows, positive less negative. Product 0 is positive at all of them. 0 for each where it
 * is refused. */
struct tarski_counts {
    int64_t number;
    uint16_t positive;
    uint16_t negative;
    uint16_t zero;
    uint16_t refusal;
};

/* An opened card: the signs of its polynomials at its distinct points, of which there are `points`. Made by tarski_open, and read by tarski_ask and
 * tarski_ask_all alone. */
struct tarski_opened {
    uint16_t refusal;
    size_t polynomials;
    size_t points;
    uint64_t positive[8];
    uint64_t negative[8];
};

/* How a list of products is answered: with 0 where the numbers are written. For 13 `position` is where in the list the first bad product stands, from 0;
 * else it is 0. */
struct tarski_numbered {
    size_t position;
    uint16_t refusal;
};

/* Checks a card of either kind: 1 to 6 and 16 to 18 refuse it. */
struct tarski_card tarski_check(const uint8_t *card, size_t length);
/* The value at x of the polynomial at a position from 0, on a card of points on the line: 2 where byte 0 of 4 bytes or more is not 1, then the card's number,
 * then 14. */
struct tarski_number tarski_value(const uint8_t *card, size_t length, size_t position, int8_t x);
/* The value at (x, y) of the polynomial at a position from 0, on a card of either kind; a polynomial in X has its value at x, whatever y is. Refused in this
 * order: by the card's number, by 14, by 6 (x or y is outside -100 to 100). */
struct tarski_number tarski_value_at(const uint8_t *card, size_t length, size_t position, int64_t x, int64_t y);
/* The query of a product on a card, in one call: the card's number, then 13. */
struct tarski_counts tarski_query(const uint8_t *card, size_t length, struct tarski_product product);
/* Opens a card, to ask many products of it: its number stands in `refusal`. */
struct tarski_opened tarski_open(const uint8_t *card, size_t length);
/* The query of a product on an opened card: the card's number, then 13. */
struct tarski_counts tarski_ask(const struct tarski_opened *card, struct tarski_product product);
/* Writes to out the numbers that the panel shows of a list of products on a card, in the list's order: the card is opened once. The list may be empty and
 * may have a product more than once. Refused in this order: by the card's number, by 15 (out is shorter than the list), by 13 (a product is above
 * 3^s - 1). A refusal writes nothing; past the numbers out keeps what lay there. */
struct tarski_numbered tarski_query_all(const uint8_t *card, size_t length, const struct tarski_product *products, size_t product_count, int64_t *out,
                                        size_t out_length);
/* The same on an opened card. */
struct tarski_numbered tarski_ask_all(const struct tarski_opened *card, const struct tarski_product *products, size_t product_count, int64_t *out,
                                      size_t out_length);

/* ---- cards written and drawn */

/* How many bytes the card written has; 0 where it is refused. */
struct tarski_written {
    size_t length;
    uint16_t refusal;
};

/* Writes to out the card, of points on the line, of polynomials of these degrees, whose coefficients stand in one list, the first polynomial's first and
 * its constant first, and of these points. Refused in this order: by 3 (not 1 to 8 degrees, or over 64 points), 16 (a degree), 1 (not as many coefficients
 * as the degrees say), for each polynomial in turn 5 and 17, then 6 (a point), and 15 (out is shorter than the card). A refusal writes nothing; past the
 * card out keeps what lay there. */
struct tarski_written tarski_write(const size_t *degrees, size_t degree_count, const int64_t *coefficients, size_t coefficient_count,
                                   const int64_t *points, size_t point_count, uint8_t *out, size_t out_length);
/* Writes to out the card of points on the line that a seed draws: so many polynomials, all of this degree, and so many points. Refused by 3, 16 and 15 in
 * this order; a refusal writes nothing, and past the card out keeps what lay there. TARSKI_LONGEST_LINE_CARD bytes have room for any. */
struct tarski_written tarski_draw(uint32_t seed, size_t polynomials, size_t points, size_t degree, uint8_t *out, size_t out_length);

/* ---- the solver */

/* Writes to out the adapted list of the patterns, a rising list: as many products as patterns. Returns 0, or 3, 11 or 15; past the products out keeps
 * what lay there. */
uint16_t tarski_adapted(size_t polynomials, const struct tarski_pattern *patterns, size_t pattern_count, struct tarski_product *out, size_t out_length);
/* Writes to out the whole numbers on the patterns, a rising list, whose queries on its adapted list (in the order of tarski_adapted) are the numbers.
 * Returns 0, or 3, 11, 15 or 12; past the numbers out keeps what lay there. */
uint16_t tarski_solve(size_t polynomials, const struct tarski_pattern *patterns, size_t pattern_count, const int64_t *numbers, size_t number_count,
                      int64_t *out, size_t out_length);

/* ---- the run */

/* The record of a run. Its fields are the library's own: lend it, and do not write it. */
struct tarski_run {
    size_t polynomials;
    size_t asked;
    uint8_t phase;
    size_t round;
    uint64_t points;
    size_t rows;
    uint16_t patterns[64];
    uint16_t counts[64];
    uint16_t products[64];
    size_t answered;
    int8_t answers[128];
};

/* What a call on a run gives: TARSKI_ASK with value.product to ask next, TARSKI_DONE, or TARSKI_REFUSED with the number value.refusal. */
enum { TARSKI_ASK = 0, TARSKI_DONE = 1, TARSKI_REFUSED = 2 };

union tarski_step_value {
    struct tarski_product product;
    uint16_t refusal;
};

struct tarski_step {
    uint16_t kind;
    union tarski_step_value value;
};

/* A row of the list that a done run has found: a pattern, and how many points have it, counted as the answers count them; 0 and 0 where it is refused. */
struct tarski_row {
    struct tarski_pattern pattern;
    uint16_t count;
    uint16_t refusal;
};

/* How many rows were copied; none where it is refused. */
struct tarski_copied {
    size_t rows;
    uint16_t refusal;
};

/* Begins a run in the lent record: product 0 is to be asked. Refused by 3 outside 1 to 8: no run begins. */
struct tarski_step tarski_start(struct tarski_run *run, size_t polynomials);
/* The answer to the product asked last. 8, 9 and 10 close the run; 7 after it was done or closed. */
struct tarski_step tarski_answer(struct tarski_run *run, int64_t answer);
/* How many questions the run has asked: those that were answered, the one whose answer closed the run among them. */
size_t tarski_asked(const struct tarski_run *run);
/* The row at a position from 0: 7 where the run is not done, 14 past the last row. */
struct tarski_row tarski_row(const struct tarski_run *run, size_t position);
/* Copies all rows: 7 where the run is not done, 15 where a slice is too short; longer ones keep what lies past the rows. */
struct tarski_copied tarski_rows(const struct tarski_run *run, struct tarski_pattern *patterns, size_t pattern_room, uint16_t *counts, size_t count_room);

/* The records are laid out as the library has them. */
#if defined(__cplusplus) && __cplusplus >= 201103L
#define TARSKI_LAID_OUT(fact) static_assert(fact, #fact)
#elif defined(__STDC_VERSION__) && __STDC_VERSION__ >= 201112L
#define TARSKI_LAID_OUT(fact) _Static_assert(fact, #fact)
#endif
#ifdef TARSKI_LAID_OUT
TARSKI_LAID_OUT(sizeof(size_t) == 8);
TARSKI_LAID_OUT(sizeof(struct tarski_pattern) == 2 && sizeof(struct tarski_product) == 2);
TARSKI_LAID_OUT(sizeof(struct tarski_card) == 24 && offsetof(struct tarski_card, points) == 8 && offsetof(struct tarski_card, refusal) == 16);
TARSKI_LAID_OUT(sizeof(struct tarski_number) == 16 && offsetof(struct tarski_number, refusal) == 8);
TARSKI_LAID_OUT(sizeof(struct tarski_counts) == 16 && offsetof(struct tarski_counts, positive) == 8 && offsetof(struct tarski_counts, negative) == 10);
TARSKI_LAID_OUT(offsetof(struct tarski_counts, zero) == 12 && offsetof(struct tarski_counts, refusal) == 14);
TARSKI_LAID_OUT(sizeof(struct tarski_numbered) == 16 && offsetof(struct tarski_numbered, refusal) == 8);
TARSKI_LAID_OUT(sizeof(struct tarski_opened) == 152 && offsetof(struct tarski_opened, polynomials) == 8);
TARSKI_LAID_OUT(offsetof(struct tarski_opened, points) == 16 && offsetof(struct tarski_opened, positive) == 24);
TARSKI_LAID_OUT(offsetof(struct tarski_opened, negative) == 88);
TARSKI_LAID_OUT(sizeof(struct tarski_run) == 568 && offsetof(struct tarski_run, asked) == 8 && offsetof(struct tarski_run, phase) == 16);
TARSKI_LAID_OUT(offsetof(struct tarski_run, round) == 24 && offsetof(struct tarski_run, points) == 32 && offsetof(struct tarski_run, rows) == 40);
TARSKI_LAID_OUT(offsetof(struct tarski_run, patterns) == 48 && offsetof(struct tarski_run, counts) == 176);
TARSKI_LAID_OUT(offsetof(struct tarski_run, products) == 304 && offsetof(struct tarski_run, answered) == 432);
TARSKI_LAID_OUT(offsetof(struct tarski_run, answers) == 440);
TARSKI_LAID_OUT(sizeof(struct tarski_step) == 4 && offsetof(struct tarski_step, value) == 2);
TARSKI_LAID_OUT(sizeof(struct tarski_row) == 6 && offsetof(struct tarski_row, count) == 2 && offsetof(struct tarski_row, refusal) == 4);
TARSKI_LAID_OUT(sizeof(struct tarski_copied) == 16 && offsetof(struct tarski_copied, refusal) == 8);
TARSKI_LAID_OUT(sizeof(struct tarski_written) == 16 && offsetof(struct tarski_written, refusal) == 8);
#undef TARSKI_LAID_OUT
#endif

#ifdef __cplusplus
}
#endif

#endif
