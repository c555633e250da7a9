/* Calls every function of include/tarski.h with results that are known, and each refusal number once; C99, C11 and C++. With the word `texts` it
 * prints what each number up to 99 means. Its arguments else are the cards of example 3.2.13 (X, X + 1, X - 2 at -3, 1, 3) and of the circle (X^2 + Y^2 - 25,
 * X - Y at (-3, 4), (0, 0), (3, 4), (4, 3), (6, 1)). Says what is wrong, and fails. */
#include <stdio.h>
#include <string.h>

#include "tarski.h"

static int wrong = 0, tried = 0;

#define SEE(fact)                                                                                                                                   \
    do {                                                                                                                                           \
        tried++;                                                                                                                                   \
        if (!(fact)) {                                                                                                                             \
            printf("%s:%d: not so: %s\n", __FILE__, __LINE__, #fact);                                                                               \
            wrong++;                                                                                                                               \
        }                                                                                                                                          \
    } while (0)

static uint8_t card[TARSKI_LONGEST_CARD + 1], plane[TARSKI_LONGEST_CARD + 1];
static size_t length, plane_length;

/* The types of the calls, said again: a declaration with parameters in another order does not compile here. */
static struct tarski_card (*check)(const uint8_t *, size_t) = tarski_check;
static struct tarski_number (*volatile value_of)(const uint8_t *, size_t, size_t, int8_t) = tarski_value;
static struct tarski_number (*volatile value_at)(const uint8_t *, size_t, size_t, int64_t, int64_t) = tarski_value_at;
static struct tarski_counts (*volatile query_of)(const uint8_t *, size_t, struct tarski_product) = tarski_query;
static struct tarski_opened (*open_card)(const uint8_t *, size_t) = tarski_open;
static struct tarski_counts (*volatile ask_of)(const struct tarski_opened *, struct tarski_product) = tarski_ask;
static struct tarski_numbered (*query_list)(const uint8_t *, size_t, const struct tarski_product *, size_t, int64_t *, size_t) = tarski_query_all;
static struct tarski_numbered (*ask_list)(const struct tarski_opened *, const struct tarski_product *, size_t, int64_t *, size_t) = tarski_ask_all;
static uint16_t (*adapted)(size_t, const struct tarski_pattern *, size_t, struct tarski_product *, size_t) = tarski_adapted;
static uint16_t (*solve)(size_t, const struct tarski_pattern *, size_t, const int64_t *, size_t, int64_t *, size_t) = tarski_solve;
static struct tarski_written (*write_card)(const size_t *, size_t, const int64_t *, size_t, const int64_t *, size_t, uint8_t *, size_t) = tarski_write;
static struct tarski_written (*draw_card)(uint32_t, size_t, size_t, size_t, uint8_t *, size_t) = tarski_draw;
static struct tarski_step (*start)(struct tarski_run *, size_t) = tarski_start;
static struct tarski_step (*answer)(struct tarski_run *, int64_t) = tarski_answer;
static size_t (*asked_by)(const struct tarski_run *) = tarski_asked;
static struct tarski_row (*row_of)(const struct tarski_run *, size_t) = tarski_row;
static struct tarski_copied (*rows_of)(const struct tarski_run *, struct tarski_pattern *, size_t, uint16_t *, size_t) = tarski_rows;

static void types(void) {
    SEE(check && value_of && query_of && open_card && ask_of && adapted && solve && start && answer && asked_by && row_of && rows_of);
    SEE(write_card && draw_card && query_list && ask_list && value_at);
}

static struct tarski_product product(unsigned number) {
    struct tarski_product made;
    made.number = (uint16_t)number;
    return made;
}

/* The card with one byte changed. */
static uint8_t changed[TARSKI_LONGEST_CARD + 1];

static const uint8_t *with(size_t place, unsigned byte) {
    memcpy(changed, card, sizeof changed);
    changed[place] = (uint8_t)byte;
    return changed;
}

static void cards(void) {
    struct tarski_card said = tarski_check(card, length);
    SEE(said.refusal == TARSKI_NOT_REFUSED && said.polynomials == 3 && said.points == 3);
    SEE(tarski_check(card, length - 1).refusal == TARSKI_WRONG_LENGTH);
    SEE(tarski_check(card, length + 1).refusal == TARSKI_WRONG_LENGTH);
    SEE(tarski_check(with(0, 3), length).refusal == TARSKI_WRONG_BYTE && tarski_check(with(0, 0), length).refusal == TARSKI_WRONG_BYTE);
    SEE(tarski_check(with(1, 9), length).refusal == TARSKI_WRONG_COUNT);
    SEE(tarski_check(with(2, 65), length).refusal == TARSKI_WRONG_COUNT);
    SEE(tarski_check(with(4, 13), length).refusal == TARSKI_WRONG_OFFSET);
    SEE(tarski_check(with(13, 1), length).refusal == TARSKI_WRONG_COEFFICIENT);
    SEE(tarski_check(with(12, 7), length).refusal == TARSKI_WRONG_DEGREE && tarski_check(with(12, 7), 13).refusal == TARSKI_WRONG_DEGREE);
    SEE(tarski_check(with(20, 0), length).refusal == TARSKI_ZERO_TOP);
    SEE(tarski_check(with(length - 1, 101), length).refusal == TARSKI_WRONG_POINT);
    said = tarski_check(with(3, 2), length);
    SEE(said.polynomials == 0 && said.points == 0);

    SEE(tarski_value(card, length, 0, -3).number == -3 && tarski_value(card, length, 0, -3).refusal == 0);
    SEE(tarski_value(card, length, 1, 5).number == 6);
    SEE(tarski_value(card, length, 2, -100).number == -102);
    SEE(tarski_value(card, length, 3, 1).refusal == TARSKI_PAST_LAST && tarski_value(card, length, 3, 1).number == 0);
    SEE(tarski_value(card, length - 1, 3, 1).refusal == TARSKI_WRONG_LENGTH);
    SEE(tarski_value_at(card, length, 2, -100, 100).number == -102 && tarski_value_at(card, length, 2, -100, 100).refusal == 0);
    SEE(tarski_value_at(card, length, 1, 5, -7).number == 6 && tarski_value_at(card, length, 0, 0, 1).number == 0);
    SEE(tarski_value_at(card, length, 0, 101, 0).refusal == TARSKI_WRONG_POINT && tarski_value_at(card, length, 0, 0, -101).refusal == TARSKI_WRONG_POINT);
    SEE(tarski_value_at(card, length, 3, 101, 0).refusal == TARSKI_PAST_LAST && tarski_value_at(card, length - 1, 3, 101, 0).refusal == TARSKI_WRONG_LENGTH);
}

/* The card of the circle with the byte at a place changed. */
static const uint8_t *plane_with(size_t place, unsigned byte) {
    memcpy(changed, plane, sizeof changed);
    changed[place] = (uint8_t)byte;
    return changed;
}

static unsigned plane_refusal(size_t place, unsigned byte) {
    return tarski_check(plane_with(place, byte), plane_length).refusal;
}

/* Its first body begins at byte 10, with terms at 11, 17 and 23, the second at 29, the points at 42. */
static void plane_cards(void) {
    static const int64_t x[5] = {-3, 0, 3, 4, 6}, y[5] = {4, 0, 4, 3, 1}, far[4] = {INT64_MIN, INT64_MAX, -101, 101};
    struct tarski_card said = tarski_check(plane, plane_length);
    struct tarski_opened opened;
    struct tarski_number none;
    SEE(said.refusal == 0 && said.polynomials == 2 && said.points == 5);
    SEE(tarski_check(plane, plane_length - 1).refusal == TARSKI_WRONG_LENGTH && tarski_check(plane, plane_length + 1).refusal == TARSKI_WRONG_LENGTH);
    SEE(plane_refusal(0, 3) == TARSKI_WRONG_BYTE && plane_refusal(3, 1) == TARSKI_WRONG_BYTE && plane_refusal(0, 1) == TARSKI_WRONG_COEFFICIENT);
    SEE(plane_refusal(1, 9) == TARSKI_WRONG_COUNT && plane_refusal(2, 65) == TARSKI_WRONG_COUNT && plane_refusal(2, 10) == TARSKI_WRONG_LENGTH);
    SEE(plane_refusal(5, 11) == TARSKI_WRONG_OFFSET && plane_refusal(7, 30) == TARSKI_WRONG_OFFSET);
    SEE(plane_refusal(10, 10) == TARSKI_WRONG_TERMS && tarski_check(plane_with(10, 10), 11).refusal == TARSKI_WRONG_TERMS);
    SEE(plane_refusal(10, 9) == TARSKI_WRONG_LENGTH);                                             /* the body is cut short */
    SEE(plane_refusal(24, 5) == TARSKI_WRONG_TERMS && plane_refusal(23, 7) == TARSKI_WRONG_TERMS); /* X^2 Y^5, X^7 */
    SEE(plane_refusal(18, 0) == TARSKI_WRONG_TERMS && plane_refusal(11, 1) == TARSKI_WRONG_TERMS); /* a term twice, a term that falls */
    SEE(plane_refusal(28, 0) == TARSKI_WRONG_TERMS && plane_refusal(25, 1) == TARSKI_WRONG_COEFFICIENT);
    plane_with(13, 1), changed[28] = 0; /* a large coefficient, then one of 0 */
    SEE(tarski_check(changed, plane_length).refusal == TARSKI_WRONG_TERMS && tarski_check(changed, 28).refusal == TARSKI_WRONG_LENGTH);
    plane_with(23, 255), changed[24] = 1; /* 255 + 1 is not 0 */
    SEE(tarski_check(changed, plane_length).refusal == TARSKI_WRONG_TERMS);
    SEE(plane_refusal(43, 101) == TARSKI_WRONG_POINT && plane_refusal(42, 155) == TARSKI_WRONG_POINT);
    SEE(plane_refusal(42, 0) == TARSKI_WRONG_POINT && plane_refusal(46, 255) == TARSKI_WRONG_POINT && plane_refusal(42, 156) == 0);
    SEE(tarski_value(plane, plane_length, 0, 3).refusal == TARSKI_WRONG_BYTE && tarski_value(plane, 4, 9, 3).refusal == TARSKI_WRONG_BYTE);
    SEE(tarski_value(plane, 3, 0, 3).refusal == TARSKI_WRONG_LENGTH && tarski_value(with(0, 0), length, 0, 3).refusal == TARSKI_WRONG_BYTE);
    for (int k = 0; k < 5; k++) {
        SEE(tarski_value_at(plane, plane_length, 0, x[k], y[k]).number == x[k] * x[k] + y[k] * y[k] - 25);
        SEE(tarski_value_at(plane, plane_length, 1, x[k], y[k]).number == x[k] - y[k] && tarski_value_at(plane, plane_length, 1, x[k], y[k]).refusal == 0);
    }
    SEE(tarski_value_at(plane, plane_length, 1, -100, 100).number == -200 && tarski_value_at(plane, plane_length, 1, 100, -100).number == 200);
    for (int k = 0; k < 4; k++) {
        SEE(tarski_value_at(plane, plane_length, 0, far[k], 0).refusal == TARSKI_WRONG_POINT);
        SEE(tarski_value_at(plane, plane_length, 1, 0, far[k]).refusal == TARSKI_WRONG_POINT);
        SEE(tarski_value_at(plane, plane_length, 2, far[k], far[k]).refusal == TARSKI_PAST_LAST);
        SEE(tarski_value_at(plane, plane_length - 1, 2, far[k], far[k]).refusal == TARSKI_WRONG_LENGTH);
    }
    none = tarski_value_at(plane_with(28, 0), plane_length, 0, 1, 1);
    SEE(none.refusal == TARSKI_WRONG_TERMS && none.number == 0);
    opened = tarski_open(plane, plane_length);
    SEE(opened.refusal == 0 && opened.polynomials == 2 && opened.points == 5);
    SEE(opened.positive[0] == 16 && opened.negative[0] == 2 && opened.positive[1] == 24 && opened.negative[1] == 5);
    opened = tarski_open(plane_with(28, 0), plane_length);
    SEE(opened.refusal == TARSKI_WRONG_TERMS && tarski_ask(&opened, product(0)).refusal == TARSKI_WRONG_TERMS);
    SEE(tarski_query(plane_with(28, 0), plane_length, product(65535)).refusal == TARSKI_WRONG_TERMS);
}

/* The longest card: eight polynomials with the nine terms of powers 6 and of X^5 and X^4 Y, all coefficients 1,000,000, at (100, 100) 64 times: one point;
 * then at (37, 100) to (100, 100), which are 64. */
static void longest_card(void) {
    static const uint8_t powers[9][2] = {{0, 6}, {1, 5}, {2, 4}, {3, 3}, {4, 1}, {4, 2}, {5, 0}, {5, 1}, {6, 0}};
    static const uint8_t million[4] = {0, 15, 66, 64};
    uint8_t made[TARSKI_LONGEST_CARD + 1] = {2, 8, 64, 0};
    size_t at = 22;
    for (size_t j = 0; j < 9; j++)
        made[4 + 2 * j] = (uint8_t)((22 + 55 * j) / 256), made[5 + 2 * j] = (uint8_t)((22 + 55 * j) % 256);
    for (size_t j = 0; j < 8; j++) {
        made[at++] = 9;
        for (size_t k = 0; k < 9; k++, at += 6)
            memcpy(made + at, powers[k], 2), memcpy(made + at + 2, million, 4);
    }
    memset(made + at, 100, 129);
    SEE(at + 128 == TARSKI_LONGEST_CARD && tarski_check(made, TARSKI_LONGEST_CARD).points == 64);
    SEE(tarski_check(made, TARSKI_LONGEST_CARD + 1).refusal == TARSKI_WRONG_LENGTH);
    SEE(tarski_value_at(made, TARSKI_LONGEST_CARD, 7, 100, 100).number == 7020000000000000000);
    SEE(tarski_value_at(made, TARSKI_LONGEST_CARD, 7, -100, 100).number == 1000000000000000000);
    SEE(tarski_query(made, TARSKI_LONGEST_CARD, product(6560)).number == 1 && tarski_open(made, TARSKI_LONGEST_CARD).points == 1);
    for (size_t k = 0; k < 64; k++)
        made[at + 2 * k] = (uint8_t)(37 + k);
    SEE(tarski_query(made, TARSKI_LONGEST_CARD, product(6560)).number == 64 && tarski_open(made, TARSKI_LONGEST_CARD).points == 64);
}

/* At how many of the card's points a product has this sign, by the card's values. */
static unsigned by_values(unsigned a, int wanted) {
    static const int8_t points[3] = {-3, 1, 3};
    unsigned count = 0;
    for (int k = 0; k < 3; k++) {
        int sign = 1;
        unsigned rest = a;
        for (size_t j = 0; j < 3; j++, rest /= 3) {
            int64_t v = tarski_value(card, length, j, points[k]).number;
            for (unsigned power = rest % 3; power; power--)
                sign *= v > 0 ? 1 : v < 0 ? -1 : 0;
        }
        count += sign == wanted;
    }
    return count;
}

/* An answer with the counts of a product, and the number that they give. */
static int told(struct tarski_counts got, unsigned a) {
    unsigned positive = by_values(a, 1), negative = by_values(a, -1), zero = by_values(a, 0);
    return got.refusal == 0 && got.positive == positive && got.negative == negative && got.zero == zero && got.number == (int64_t)positive - (int64_t)negative
        && got.positive + got.negative + got.zero == 3;
}

/* An answer of nothing but the refusal. */
static int refused(struct tarski_counts got, unsigned refusal) {
    return got.refusal == refusal && got.number == 0 && got.positive == 0 && got.negative == 0 && got.zero == 0;
}

static void queries(void) {
    struct tarski_opened opened = tarski_open(card, length);
    SEE(opened.refusal == 0 && opened.polynomials == 3 && opened.points == 3);
    SEE(opened.positive[0] == 6 && opened.negative[0] == 1 && opened.positive[2] == 4 && opened.negative[2] == 3);
    for (unsigned a = 0; a < 27; a++) {
        SEE(told(tarski_query(card, length, product(a)), a));
        SEE(told(tarski_ask(&opened, product(a)), a));
    }
    SEE(refused(tarski_query(card, length, product(27)), TARSKI_WRONG_PRODUCT));
    SEE(refused(tarski_ask(&opened, product(27)), TARSKI_WRONG_PRODUCT) && refused(tarski_ask(&opened, product(65535)), TARSKI_WRONG_PRODUCT));
    SEE(refused(tarski_query(card, length - 1, product(0)), TARSKI_WRONG_LENGTH));
    opened = tarski_open(with(3, 1), length);
    SEE(opened.refusal == TARSKI_WRONG_BYTE && tarski_ask(&opened, product(0)).refusal == TARSKI_WRONG_BYTE);
    opened = tarski_open(with(12, 7), length);
    SEE(opened.refusal == TARSKI_WRONG_DEGREE && tarski_ask(&opened, product(0)).refusal == TARSKI_WRONG_DEGREE);
    opened = tarski_open(with(20, 0), length);
    SEE(opened.refusal == TARSKI_ZERO_TOP && tarski_ask(&opened, product(27)).refusal == TARSKI_ZERO_TOP);
}

/* A list of products asked in both ways, of a card's bytes so long and with so much room: the refusal and the position that both must give, and what both
 * must leave in the slice, where 4711 stood at each of its eight places. */
static int listed(size_t bytes, const unsigned *numbers, size_t count, size_t room, unsigned refusal, size_t position, const int64_t *left) {
    struct tarski_product products[8];
    int64_t first[8], second[8];
    struct tarski_opened opened = tarski_open(card, bytes);
    struct tarski_numbered got, asked;
    for (int k = 0; k < 8; k++)
        products[k] = product(numbers[k]), first[k] = second[k] = 4711;
    got = tarski_query_all(card, bytes, products, count, first, room);
    asked = tarski_ask_all(&opened, products, count, second, room);
    return got.refusal == refusal && got.position == position && asked.refusal == refusal && asked.position == position
        && memcmp(first, left, sizeof first) == 0 && memcmp(second, left, sizeof second) == 0;
}

static void lists(void) {
    static const unsigned good[8] = {9, 0, 1, 9, 26, 9, 0, 0};
    static const unsigned bad_first[8] = {27, 0, 1}, bad_between[8] = {0, 27, 1}, bad_last[8] = {0, 26, 65535}, two_bad[8] = {0, 28, 27};
    static const int64_t kept[8] = {4711, 4711, 4711, 4711, 4711, 4711, 4711, 4711};
    static const int64_t three[8] = {-1, 3, 1, 4711, 4711, 4711, 4711, 4711}, six[8] = {-1, 3, 1, -1, 3, -1, 4711, 4711};
    struct tarski_opened refused_card;
    int64_t out[1] = {4711};
    SEE(listed(length, good, 3, 8, 0, 0, three) && listed(length, good, 3, 3, 0, 0, three) && listed(length, good, 6, 7, 0, 0, six));
    SEE(listed(length, good, 0, 8, 0, 0, kept) && listed(length, good, 0, 0, 0, 0, kept));
    SEE(listed(length, bad_first, 3, 8, TARSKI_WRONG_PRODUCT, 0, kept) && listed(length, bad_between, 3, 8, TARSKI_WRONG_PRODUCT, 1, kept));
    SEE(listed(length, bad_last, 3, 3, TARSKI_WRONG_PRODUCT, 2, kept) && listed(length, two_bad, 3, 8, TARSKI_WRONG_PRODUCT, 1, kept));
    SEE(listed(length, good, 3, 2, TARSKI_TOO_SHORT, 0, kept) && listed(length, good, 1, 0, TARSKI_TOO_SHORT, 0, kept));
    SEE(listed(length, bad_between, 3, 2, TARSKI_TOO_SHORT, 0, kept) && listed(length - 1, bad_between, 3, 2, TARSKI_WRONG_LENGTH, 0, kept));
    SEE(listed(length - 1, good, 0, 0, TARSKI_WRONG_LENGTH, 0, kept));
    refused_card = tarski_open(with(20, 0), length);
    SEE(tarski_ask_all(&refused_card, NULL, 0, NULL, 0).refusal == TARSKI_ZERO_TOP);
    SEE(tarski_query_all(with(12, 7), length, NULL, 0, out, 1).refusal == TARSKI_WRONG_DEGREE && out[0] == 4711);
}

/* Why a panel shows 0: X at -1, 0 and 1 is positive and negative once each; X at 0, and 0 at three points, one of them named twice, are zero. */
static void reasons(void) {
    static const size_t degree[2] = {1, 0};
    static const int64_t x[2] = {0, 1}, zero[1] = {0}, around[3] = {-1, 0, 1}, four[4] = {-100, 0, 0, 100};
    uint8_t made[TARSKI_LONGEST_LINE_CARD];
    struct tarski_written written = tarski_write(degree, 1, x, 2, around, 3, made, sizeof made);
    struct tarski_counts got = tarski_query(made, written.length, product(1));
    SEE(got.refusal == 0 && got.number == 0 && got.positive == 1 && got.negative == 1 && got.zero == 1);
    got = tarski_query(made, written.length, product(2));
    SEE(got.refusal == 0 && got.number == 2 && got.positive == 2 && got.negative == 0 && got.zero == 1);
    written = tarski_write(degree, 1, x, 2, around + 1, 1, made, sizeof made);
    got = tarski_query(made, written.length, product(2));
    SEE(got.refusal == 0 && got.number == 0 && got.positive == 0 && got.negative == 0 && got.zero == 1);
    written = tarski_write(degree + 1, 1, zero, 1, four, 4, made, sizeof made);
    got = tarski_query(made, written.length, product(1));
    SEE(got.refusal == 0 && got.number == 0 && got.positive == 0 && got.negative == 0 && got.zero == 3);
    got = tarski_query(made, written.length, product(0));
    SEE(got.refusal == 0 && got.number == 3 && got.positive == 3 && got.negative == 0 && got.zero == 0);
}

/* A repeated point counts once. The counts of a product at so many points. */
static int shows(struct tarski_counts got, unsigned points, unsigned positive, unsigned negative) {
    return got.refusal == 0 && got.positive == positive && got.negative == negative && got.zero == points - positive - negative
        && got.number == (int64_t)positive - (int64_t)negative;
}

/* A card that names n points: check gives n; opened, it has the different ones; product 0 is positive at each of them, and product a has these counts, which
 * add up to them; asked in both ways. */
static int counted(const uint8_t *bytes, size_t size, size_t n, unsigned points, unsigned a, unsigned positive, unsigned negative) {
    struct tarski_opened opened = tarski_open(bytes, size);
    return tarski_check(bytes, size).points == n && opened.refusal == 0 && opened.points == points
        && shows(tarski_query(bytes, size, product(0)), points, points, 0) && shows(tarski_ask(&opened, product(0)), points, points, 0)
        && shows(tarski_query(bytes, size, product(a)), points, positive, negative) && shows(tarski_ask(&opened, product(a)), points, positive, negative);
}

/* X at points of the line: how many are named, how many are different, at how many of these X is positive and negative. */
static void repeated(void) {
    static const struct {
        size_t n;
        unsigned points, positive, negative;
        int64_t x[8];
    } lines[9] = {
        {2, 1, 1, 0, {5, 5}},
        {8, 1, 0, 0, {0, 0, 0, 0, 0, 0, 0, 0}},
        {3, 2, 1, 1, {-1, -1, 2}},
        {3, 2, 1, 1, {-1, 2, 2}},
        {4, 3, 1, 1, {-1, 0, 0, 1}},
        {6, 3, 1, 1, {-1, -1, 0, 0, 2, 2}},
        {4, 4, 3, 1, {-9, 1, 2, 3}}, /* 1, 2 and 3 have one pattern */
        {5, 3, 3, 0, {1, 2, 2, 3, 3}},
        {8, 4, 2, 1, {-2, -2, -2, 0, 0, 3, 100, 100}},
    };
    static const size_t degree[1] = {1};
    static const int64_t x[2] = {0, 1};
    uint8_t made[TARSKI_LONGEST_LINE_CARD];
    struct tarski_opened opened;
    struct tarski_run run;
    struct tarski_step step;
    size_t size = 0;
    for (int k = 0; k < 9; k++) {
        size = tarski_write(degree, 1, x, 2, lines[k].x, lines[k].n, made, sizeof made).length;
        SEE(counted(made, size, lines[k].n, lines[k].points, 1, lines[k].positive, lines[k].negative));
        SEE(counted(made, size, lines[k].n, lines[k].points, 2, lines[k].positive + lines[k].negative, 0));
    }
    /* the last of them, asked to the end: 0 at one point, + at two, - at one */
    opened = tarski_open(made, size);
    for (step = tarski_start(&run, 1); step.kind == TARSKI_ASK;)
        step = tarski_answer(&run, tarski_ask(&opened, step.value.product).number);
    SEE(step.kind == TARSKI_DONE && tarski_asked(&run) == 3 && run.points == 4 && run.rows == 3);
    SEE(tarski_row(&run, 0).count == 1 && tarski_row(&run, 1).count == 2 && tarski_row(&run, 2).count == 1 && tarski_row(&run, 2).pattern.number == 2);
}

/* The same of X and Y in the plane, where points are different by X or by Y. */
static void repeated_in_plane(void) {
    static const struct {
        size_t n;
        unsigned points, positive[2], negative[2];
        int8_t at[6][2];
    } planes[8] = {
        {3, 3, {3, 1}, {0, 1}, {{4, -1}, {4, 0}, {4, 7}}},                                /* equal X */
        {3, 3, {1, 3}, {1, 0}, {{-1, 4}, {0, 4}, {7, 4}}},                                /* equal Y */
        {3, 3, {3, 3}, {0, 0}, {{1, 1}, {1, 2}, {2, 1}}},                                 /* one pattern */
        {3, 2, {1, 1}, {1, 1}, {{-1, 1}, {-1, 1}, {1, -1}}},                              /* the first twice */
        {3, 2, {1, 1}, {1, 1}, {{-1, 1}, {1, -1}, {1, -1}}},                              /* the last twice */
        {6, 1, {1, 0}, {0, 1}, {{3, -3}, {3, -3}, {3, -3}, {3, -3}, {3, -3}, {3, -3}}},   /* all equal */
        {6, 3, {0, 1}, {2, 1}, {{-2, -1}, {-2, -1}, {-2, 4}, {-2, 4}, {0, 0}, {0, 0}}},   /* each twice, two with equal X */
        {6, 4, {3, 2}, {0, 1}, {{0, 2}, {0, 2}, {5, -5}, {5, 0}, {5, 0}, {6, 2}}},        /* some twice, equal X, equal Y */
    };
    uint8_t made[36] = {2, 2, 0, 0, 0, 10, 0, 17, 0, 24, 1, 1, 0, 0, 0, 0, 1, 1, 0, 1, 0, 0, 0, 1};
    for (int k = 0; k < 8; k++) {
        made[2] = (uint8_t)planes[k].n;
        memcpy(made + 24, planes[k].at, sizeof planes[k].at);
        for (unsigned j = 0; j < 2; j++)
            SEE(counted(made, 24 + 2 * planes[k].n, planes[k].n, planes[k].points, j ? 3 : 1, planes[k].positive[j], planes[k].negative[j]));
    }
    plane_with(44, 253), changed[45] = 4; /* of the circle's card, (-3, 4) a second time in place of (0, 0) */
    SEE(counted(changed, plane_length, 5, 4, 1, 1, 0));
    plane_with(44, 253), changed[45] = 5; /* (-3, 5) in place of (0, 0) */
    SEE(counted(changed, plane_length, 5, 5, 1, 2, 0));
}

/* A one-field struct is passed like its field, and what a register holds above its 16 bits has no effect: the same calls with such bits. */
typedef struct tarski_counts (*query_wide)(const uint8_t *, size_t, uint32_t);
typedef struct tarski_counts (*ask_wide)(const struct tarski_opened *, uint32_t);
typedef struct tarski_number (*value_wide)(const uint8_t *, size_t, size_t, uint32_t);

static void registers(void) {
    query_wide query;
    ask_wide ask;
    value_wide value;
    struct tarski_opened opened = tarski_open(card, length);
    memcpy(&query, (const void *)&query_of, sizeof query);
    memcpy(&ask, (const void *)&ask_of, sizeof ask);
    memcpy(&value, (const void *)&value_of, sizeof value);
    SEE(query(card, length, 0xabcd0009u).number == -1 && query(card, length, 0xabcd0009u).refusal == 0);
    SEE(ask(&opened, 0xabcd0009u).number == -1 && ask(&opened, 0xabcd001bu).refusal == TARSKI_WRONG_PRODUCT);
    SEE(value(card, length, 1, 0xabcdef05u).number == 6 && value(card, length, 1, 0x000000fbu).number == -4);
}

static void solver(void) {
    struct tarski_pattern list[3] = {{13}, {22}, {26}}, falling[2] = {{2}, {1}}, above[1] = {{27}}, many[65];
    struct tarski_product out[65], kept = {4711};
    struct tarski_opened opened = tarski_open(card, length);
    int64_t numbers[65], found[4];
    for (int k = 0; k < 65; k++)
        many[k].number = (uint16_t)k, numbers[k] = 0, out[k] = kept;

    SEE(tarski_adapted(0, list, 3, out, 65) == TARSKI_WRONG_COUNT && tarski_adapted(9, list, 3, out, 65) == TARSKI_WRONG_COUNT);
    SEE(tarski_adapted(3, falling, 2, out, 65) == TARSKI_WRONG_LIST && tarski_adapted(3, above, 1, out, 65) == TARSKI_WRONG_LIST);
    SEE(tarski_adapted(8, many, 65, out, 65) == TARSKI_WRONG_LIST && tarski_adapted(3, list, 3, out, 2) == TARSKI_TOO_SHORT);
    for (int k = 0; k < 65; k++)
        SEE(out[k].number == 4711);
    SEE(tarski_adapted(8, many, 64, out, 64) == 0 && out[64].number == 4711);
    for (int k = 0; k < 64; k++)
        SEE(out[k].number == k);
    SEE(tarski_adapted(3, list, 3, out, 65) == 0 && out[0].number == 0 && out[1].number == 1 && out[2].number == 9 && out[3].number != 0);

    /* the numbers asked of the adapted list give back one point for each pattern */
    for (int k = 0; k < 3; k++)
        numbers[k] = tarski_ask(&opened, out[k]).number;
    found[3] = 4711;
    SEE(tarski_solve(3, list, 3, numbers, 3, found, 4) == 0);
    SEE(found[0] == 1 && found[1] == 1 && found[2] == 1 && found[3] == 4711);
    numbers[0] = 2, numbers[1] = 0, numbers[2] = 4;
    SEE(tarski_solve(3, list, 3, numbers, 3, found, 4) == 0 && found[0] == 3 && found[1] == -2 && found[2] == 1);
    SEE(tarski_solve(0, list, 3, numbers, 3, found, 4) == TARSKI_WRONG_COUNT);
    SEE(tarski_solve(3, list, 3, numbers, 2, found, 4) == TARSKI_WRONG_LIST && tarski_solve(3, falling, 2, numbers, 2, found, 4) == TARSKI_WRONG_LIST);
    SEE(tarski_solve(3, list, 3, numbers, 3, found, 2) == TARSKI_TOO_SHORT);
    numbers[0] = 3, numbers[1] = 0, numbers[2] = 0;
    SEE(tarski_solve(3, list, 3, numbers, 3, found, 4) == TARSKI_NO_SOLUTION);
    SEE(found[0] == 3 && found[1] == -2 && found[2] == 1 && found[3] == 4711);
}

/* A buffer as it was: every byte is 90. */
static uint8_t buffer[TARSKI_LONGEST_CARD + 1];

static int untouched(size_t from) {
    while (from < sizeof buffer && buffer[from] == 90)
        from++;
    return from == sizeof buffer;
}

static void written(void) {
    static const size_t degrees[9] = {1, 1, 1, 0, 0, 0, 0, 0, 0};
    static const size_t high[2] = {7, 0};
    static const int64_t numbers[6] = {0, 1, 1, 1, -2, 1}, points[65] = {-3, 1, 3}, falling[2] = {1, 0}, far[1] = {-101};
    static const int64_t large[6] = {0, 1, 1, -1000001, -2, 1}, top[6] = {0, 0, 1, -1000001, -2, 1}, least[6] = {0, 1, 1, INT64_MIN, -2, 0};
    struct tarski_written made;
    memset(buffer, 90, sizeof buffer);
    made = tarski_write(degrees, 0, numbers, 0, points, 65, buffer, 0);
    SEE(made.refusal == TARSKI_WRONG_COUNT && made.length == 0);
    SEE(tarski_write(degrees, 9, numbers, 6, points, 3, buffer, sizeof buffer).refusal == TARSKI_WRONG_COUNT);
    SEE(tarski_write(high, 2, numbers, 6, points, 65, buffer, sizeof buffer).refusal == TARSKI_WRONG_COUNT);
    SEE(tarski_write(high, 2, numbers, 6, points, 3, buffer, sizeof buffer).refusal == TARSKI_WRONG_DEGREE);
    SEE(tarski_write(degrees, 3, numbers, 5, far, 1, buffer, sizeof buffer).refusal == TARSKI_WRONG_LENGTH);
    SEE(tarski_write(degrees, 3, large, 6, far, 1, buffer, sizeof buffer).refusal == TARSKI_WRONG_COEFFICIENT);
    SEE(tarski_write(degrees, 3, least, 6, far, 1, buffer, sizeof buffer).refusal == TARSKI_WRONG_COEFFICIENT);
    SEE(tarski_write(degrees, 3, top, 6, far, 1, buffer, sizeof buffer).refusal == TARSKI_ZERO_TOP);
    SEE(tarski_write(degrees, 3, numbers, 6, far, 1, buffer, 0).refusal == TARSKI_WRONG_POINT);
    SEE(tarski_write(degrees, 3, numbers, 6, falling, 2, buffer, 0).refusal == TARSKI_WRONG_POINT);
    made = tarski_write(degrees, 3, numbers, 6, points, 3, buffer, 41);
    SEE(made.refusal == TARSKI_TOO_SHORT && made.length == 0 && untouched(0));
    made = tarski_write(degrees, 3, numbers, 6, points, 3, buffer, sizeof buffer);
    SEE(made.refusal == 0 && made.length == 42 && memcmp(buffer, card, 42) == 0 && untouched(42));
}

static void drawn(void) {
    /* seed 0, one polynomial of degree 0 and one point */
    static const uint8_t first[14] = {1, 1, 1, 0, 0, 8, 0, 13, 0, 0xff, 0xff, 0xff, 0xfb, 0x42};
    struct tarski_written made;
    memset(buffer, 90, sizeof buffer);
    SEE(tarski_draw(0, 0, 65, 7, buffer, 0).refusal == TARSKI_WRONG_COUNT && tarski_draw(0, 9, 0, 7, buffer, 0).refusal == TARSKI_WRONG_COUNT);
    SEE(tarski_draw(0, 8, 65, 7, buffer, 0).refusal == TARSKI_WRONG_COUNT && tarski_draw(0, 8, 64, 7, buffer, 0).refusal == TARSKI_WRONG_DEGREE);
    made = tarski_draw(0, 1, 1, 0, buffer, 13);
    SEE(made.refusal == TARSKI_TOO_SHORT && made.length == 0 && untouched(0));
    made = tarski_draw(0, 1, 1, 0, buffer, sizeof buffer);
    SEE(made.refusal == 0 && made.length == 14 && memcmp(buffer, first, 14) == 0 && untouched(14));
    made = tarski_draw(UINT32_MAX, 8, 64, 6, buffer, sizeof buffer);
    SEE(made.refusal == 0 && made.length == TARSKI_LONGEST_LINE_CARD && untouched(TARSKI_LONGEST_LINE_CARD));
    SEE(tarski_check(buffer, made.length).polynomials == 8 && tarski_check(buffer, made.length).points == 64);
}

/* A record with memory after it, filled with a byte. */
struct guarded {
    struct tarski_run run;
    unsigned char after[64];
};

static void fill(struct guarded *g, int byte) {
    memset(g, byte, sizeof *g);
}

static void see_after(const struct guarded *g, int byte) {
    for (size_t k = 0; k < sizeof g->after; k++)
        SEE(g->after[k] == byte);
}

static void runs(void) {
    struct tarski_opened opened = tarski_open(card, length);
    for (int byte = 0; byte < 256; byte += 85) {
        struct guarded g, before;
        struct tarski_pattern patterns[5];
        uint16_t counts[5];
        struct tarski_step step;
        struct tarski_row row;
        struct tarski_copied copied;
        fill(&g, byte), fill(&before, byte);
        step = tarski_start(&g.run, 9);
        SEE(step.kind == TARSKI_REFUSED && step.value.refusal == TARSKI_WRONG_COUNT && memcmp(&g, &before, sizeof g) == 0);
        step = tarski_start(&g.run, 3);
        SEE(step.kind == TARSKI_ASK && step.value.product.number == 0 && tarski_asked(&g.run) == 0);
        SEE(tarski_row(&g.run, 0).refusal == TARSKI_LATE && tarski_rows(&g.run, patterns, 5, counts, 5).refusal == TARSKI_LATE);
        for (int k = 0; step.kind == TARSKI_ASK; k++) {
            SEE(tarski_asked(&g.run) == (size_t)k);
            step = tarski_answer(&g.run, tarski_ask(&opened, step.value.product).number);
        }
        SEE(step.kind == TARSKI_DONE && tarski_asked(&g.run) == 11);
        SEE(g.run.polynomials == 3 && g.run.asked == 11 && g.run.phase == 1 && g.run.points == 3 && g.run.rows == 3);
        SEE(g.run.patterns[0] == 13 && g.run.patterns[2] == 26 && g.run.counts[0] == 1 && g.run.counts[2] == 1);
        row = tarski_row(&g.run, 1);
        SEE(row.refusal == 0 && row.pattern.number == 22 && row.count == 1);
        row = tarski_row(&g.run, 3);
        SEE(row.refusal == TARSKI_PAST_LAST && row.pattern.number == 0 && row.count == 0);
        for (int k = 0; k < 5; k++)
            patterns[k].number = 4711, counts[k] = 4712;
        copied = tarski_rows(&g.run, patterns, 2, counts, 5);
        SEE(copied.refusal == TARSKI_TOO_SHORT && copied.rows == 0 && patterns[0].number == 4711 && counts[0] == 4712);
        SEE(tarski_rows(&g.run, patterns, 5, counts, 2).refusal == TARSKI_TOO_SHORT && tarski_rows(&g.run, NULL, 0, NULL, 0).refusal == TARSKI_TOO_SHORT);
        copied = tarski_rows(&g.run, patterns, 4, counts, 5);
        SEE(copied.refusal == 0 && copied.rows == 3 && patterns[0].number == 13 && patterns[1].number == 22 && patterns[2].number == 26);
        SEE(counts[0] == 1 && counts[1] == 1 && counts[2] == 1 && patterns[3].number == 4711 && counts[3] == 4712);
        step = tarski_answer(&g.run, 0);
        SEE(step.kind == TARSKI_REFUSED && step.value.refusal == TARSKI_LATE && tarski_asked(&g.run) == 11);
        see_after(&g, byte);
    }
}

static void closed(void) {
    static const int64_t answers[4][3] = {{-1, 0, 0}, {65, 0, 0}, {3, -4, 0}, {2, 1, 2}};
    static const uint16_t refusals[4] = {TARSKI_BAD_FIRST, TARSKI_BAD_FIRST, TARSKI_BAD_LATER, TARSKI_NO_COUNTS};
    static const size_t asked[4] = {1, 1, 2, 3};
    for (int k = 0; k < 4; k++) {
        struct tarski_run run;
        struct tarski_step step = tarski_start(&run, 1);
        for (int i = 0; step.kind == TARSKI_ASK && i < 3; i++)
            step = tarski_answer(&run, answers[k][i]);
        SEE(step.kind == TARSKI_REFUSED && step.value.refusal == refusals[k] && tarski_asked(&run) == asked[k]);
        step = tarski_answer(&run, 0);
        SEE(step.kind == TARSKI_REFUSED && step.value.refusal == TARSKI_LATE && tarski_row(&run, 0).refusal == TARSKI_LATE);
    }
}

/* NULL with the length 0. */
static void nothing(void) {
    struct tarski_run run;
    struct tarski_step step = tarski_start(&run, 1);
    SEE(tarski_check(NULL, 0).refusal == TARSKI_WRONG_LENGTH && tarski_open(NULL, 0).refusal == TARSKI_WRONG_LENGTH);
    SEE(tarski_query(NULL, 0, product(0)).refusal == TARSKI_WRONG_LENGTH && tarski_value(NULL, 0, 0, 0).refusal == TARSKI_WRONG_LENGTH);
    SEE(tarski_value_at(NULL, 0, 0, 0, 0).refusal == TARSKI_WRONG_LENGTH);
    SEE(tarski_query_all(NULL, 0, NULL, 0, NULL, 0).refusal == TARSKI_WRONG_LENGTH && tarski_query_all(card, length, NULL, 0, NULL, 0).refusal == 0);
    SEE(tarski_write(NULL, 0, NULL, 0, NULL, 0, NULL, 0).refusal == TARSKI_WRONG_COUNT && tarski_draw(1, 1, 0, 0, NULL, 0).refusal == TARSKI_TOO_SHORT);
    SEE(tarski_adapted(1, NULL, 0, NULL, 0) == 0 && tarski_solve(1, NULL, 0, NULL, 0, NULL, 0) == 0);
    step = tarski_answer(&run, 0);
    SEE(step.kind == TARSKI_DONE && tarski_rows(&run, NULL, 0, NULL, 0).refusal == 0 && tarski_rows(&run, NULL, 0, NULL, 0).rows == 0);
}

/* Reads a card, and gives its length; 0 where there is none. */
static size_t given(const char *name, uint8_t *bytes) {
    FILE *file = fopen(name, "rb");
    size_t n = file ? fread(bytes, 1, TARSKI_LONGEST_CARD + 1, file) : 0;
    if (file)
        fclose(file);
    return n;
}

int main(int count, char **words) {
    if (count == 2 && strcmp(words[1], "texts") == 0) {
        for (uint16_t k = 0; k < 100; k++)
            printf("%u %s\n", (unsigned)k, tarski_refusal_text(k));
        return 0;
    }
    if (count != 3) {
        puts("usage: library CARD CIRCLE | texts");
        return 2;
    }
    length = given(words[1], card);
    plane_length = given(words[2], plane);
    SEE(length == 42 && plane_length == 52);
    SEE(strcmp(TARSKI_VERSION, "0.7.0") == 0 && TARSKI_VERSION_MAJOR == 0 && TARSKI_VERSION_MINOR == 7 && TARSKI_VERSION_PATCH == 0);
    SEE(TARSKI_LONGEST_CARD == 590 && TARSKI_LONGEST_LINE_CARD == 318);
    if (!wrong) {
        types();
        cards();
        plane_cards();
        longest_card();
        queries();
        lists();
        reasons();
        repeated();
        repeated_in_plane();
        registers();
        solver();
        written();
        drawn();
        runs();
        closed();
        nothing();
    }
    printf("%d facts tried, %d wrong\n", tried, wrong);
    return wrong ? 1 : 0;
}
