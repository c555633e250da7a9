/* Opened cards and run records that no call could have left: their fields are plain numbers, and every call on them still answers. Each answer is
 * compared with one worked out here another way: signs point by point; records by the rules of crates/run_record/specs/Record.antt, and the end of
 * a round by elimination modulo a prime, with adapted lists as document 000 has them, the first products whose rows of signs are independent.
 *
 *     forged [ROUNDS [SEED]]        prints what it saw; exits 1 at a difference, and where a case never occurred */
#include <stdio.h>
#include <stdlib.h>
#include <string.h>
#include "tarski.h"

static uint64_t state;

static uint64_t draw(uint64_t below) {
    state ^= state << 13;
    state ^= state >> 7;
    state ^= state << 17;
    return below ? (state >> 11) % below : state;
}

static void differs(const char *what, long long want, long long got) {
    printf("forged: %s: must be %lld, is %lld\n", what, want, got);
    exit(1);
}

static void same(const char *what, long long want, long long got) {
    if (want != got)
        differs(what, want, got);
}

static unsigned power(size_t s) {
    unsigned p = 1;
    while (s--)
        p *= 3;
    return p;
}

/* ---- opened cards */

/* The sign of polynomial j at point k: where both bits are set it is taken for negative. */
static int sign_at(const struct tarski_opened *card, size_t j, size_t k) {
    if (card->negative[j] >> k & 1)
        return -1;
    return (int)(card->positive[j] >> k & 1);
}

static unsigned opened_refusal(const struct tarski_opened *card, unsigned product) {
    if ((card->refusal >= 1 && card->refusal <= 6) || (card->refusal >= 16 && card->refusal <= 18))
        return card->refusal;
    if (card->refusal || card->polynomials < 1 || card->polynomials > 8 || card->points > 64)
        return 3;
    return product >= power(card->polynomials) ? 13 : 0;
}

/* At how many of a card's points the product has this sign. */
static unsigned opened_count(const struct tarski_opened *card, unsigned product, int wanted) {
    unsigned count = 0;
    for (size_t k = 0; k < card->points; k++) {
        int sign = 1;
        unsigned rest = product;
        for (size_t j = 0; j < card->polynomials; j++, rest /= 3)
            for (unsigned e = rest % 3; e; e--)
                sign *= sign_at(card, j, k);
        count += sign == wanted;
    }
    return count;
}

/* A list of products on an opened card, with some room: its refusal by the card, the room and the first bad product, and the slice. */
enum { LISTED = 0, LIST_BY_CARD = 1, LIST_BY_13 = 2, LIST_BY_15 = 3, LISTS = 4 };

static unsigned long lists[LISTS];

static void forged_list(const struct tarski_opened *card) {
    struct tarski_product products[6];
    int64_t out[6];
    size_t count = draw(7), room = draw(7), position = 0;
    for (size_t k = 0; k < 6; k++) {
        products[k].number = (uint16_t)draw(card->polynomials <= 8 ? power(card->polynomials) + (draw(4) == 0) : 65536);
        out[k] = 4711;
    }
    unsigned refusal = opened_refusal(card, 0);
    lists[refusal ? LIST_BY_CARD : room < count ? LIST_BY_15 : LISTED]++;
    if (!refusal && room < count)
        refusal = 15;
    for (size_t k = 0; !refusal && k < count; k++)
        if (opened_refusal(card, products[k].number))
            refusal = 13, position = k, lists[LISTED]--, lists[LIST_BY_13]++;
    struct tarski_numbered got = tarski_ask_all(card, products, count, out, room);
    same("refusal of a list on an opened card", refusal, got.refusal);
    same("position of a bad product on an opened card", (long long)position, (long long)got.position);
    for (size_t k = 0; k < 6; k++) {
        unsigned a = products[k].number;
        same("number of a list on an opened card", refusal || k >= count ? 4711 : (long long)opened_count(card, a, 1) - opened_count(card, a, -1), out[k]);
    }
}

static unsigned forged_card(void) {
    struct tarski_opened card;
    static const uint16_t numbers[] = {0, 0, 0, 0, 1, 3, 5, 6, 7, 9, 13, 15, 16, 17, 18, 19, 65535};
    card.refusal = numbers[draw(17)];
    card.polynomials = draw(8) ? 1 + draw(8) : draw(2) ? 0 : 9 + draw(1000000);
    card.points = draw(8) ? draw(65) : 65 + draw(1000);
    for (size_t j = 0; j < 8; j++) {
        card.positive[j] = draw(0);
        card.negative[j] = draw(0) & draw(0);
    }
    unsigned product = (unsigned)draw(card.polynomials <= 8 ? power(card.polynomials) + 2 : 65536);
    unsigned refusal = opened_refusal(&card, product);
    struct tarski_product asked = {(uint16_t)product};
    struct tarski_counts got = tarski_ask(&card, asked);
    unsigned positive = refusal ? 0 : opened_count(&card, product, 1), negative = refusal ? 0 : opened_count(&card, product, -1);
    same("refusal of an opened card", refusal, got.refusal);
    same("points of an opened card where a product is positive", positive, got.positive);
    same("points of an opened card where a product is negative", negative, got.negative);
    same("points of an opened card where a product is zero", refusal ? 0 : opened_count(&card, product, 0), got.zero);
    same("query of an opened card", (long long)positive - (long long)negative, got.number);
    same("counts of an opened card together", refusal ? 0 : (long long)card.points, got.positive + got.negative + got.zero);
    forged_list(&card);
    return refusal;
}

/* ---- adapted lists and the end of a round, by elimination */

enum { MOST = TARSKI_MOST_ROWS, PRIME = 2147483647 };

/* Equations of signs on patterns, each with two right hand sides, modulo the prime. */
struct equations {
    size_t number;
    size_t pivot[MOST];
    int64_t sign[MOST][MOST + 2];
};

static int64_t modulo(int64_t x) {
    x %= PRIME;
    return x < 0 ? x + PRIME : x;
}

/* x to the power PRIME - 2. */
static int64_t inverse(int64_t x) {
    int64_t result = 1;
    for (int64_t e = PRIME - 2; e; e >>= 1, x = x * x % PRIME)
        if (e & 1)
            result = result * x % PRIME;
    return result;
}

/* The sign of a product on a pattern. */
static int sign_on(unsigned product, unsigned pattern) {
    int sign = 1;
    for (; product; product /= 3, pattern /= 3)
        for (unsigned e = product % 3; e; e--)
            sign *= pattern % 3 == 2 ? -1 : (int)(pattern % 3);
    return sign;
}

/* Takes a row into the equations where it is independent of theirs, and solves them for its pivot. */
static int taken(struct equations *all, size_t width, int64_t *row) {
    size_t pivot = 0;
    for (size_t k = 0; k < all->number; k++) {
        int64_t by = row[all->pivot[k]];
        for (size_t c = 0; by && c < width + 2; c++)
            row[c] = modulo(row[c] - by * all->sign[k][c]);
    }
    while (pivot < width && !row[pivot])
        pivot++;
    if (pivot == width)
        return 0;
    int64_t by = inverse(row[pivot]);
    for (size_t c = 0; c < width + 2; c++)
        row[c] = row[c] * by % PRIME;
    for (size_t k = 0; k < all->number; k++)
        for (size_t c = 0, of = (size_t)all->sign[k][pivot]; of && c < width + 2; c++)
            all->sign[k][c] = modulo(all->sign[k][c] - (int64_t)of * row[c]);
    memcpy(all->sign[all->number], row, sizeof *row * (width + 2));
    all->pivot[all->number++] = pivot;
    return 1;
}

/* The adapted list of a rising list of patterns; and where answers are given, the numbers on the patterns whose queries on it they are: e of the first
 * half of the answers and g of the second, between -PRIME / 2 and PRIME / 2. Any that are small are exact, since a query of them is. */
static void adapt(const uint16_t *patterns, size_t rows, uint16_t *products, const int64_t *answers, int64_t *e, int64_t *g) {
    static struct equations all;
    all.number = 0;
    for (unsigned product = 0; all.number < rows; product++) {
        int64_t row[MOST + 2];
        size_t found = all.number;
        for (size_t c = 0; c < rows; c++)
            row[c] = modulo(sign_on(product, patterns[c]));
        row[rows] = answers ? modulo(answers[found]) : 0;
        row[rows + 1] = answers ? modulo(answers[rows + found]) : 0;
        if (taken(&all, rows, row))
            products[found] = (uint16_t)product;
    }
    for (size_t k = 0; answers && k < rows; k++) {
        int64_t x = all.sign[k][rows], y = all.sign[k][rows + 1];
        e[all.pivot[k]] = x > PRIME / 2 ? x - PRIME : x;
        g[all.pivot[k]] = y > PRIME / 2 ? y - PRIME : y;
    }
}

/* Whether a record's rows are such as a round before this one leaves: patterns rising and below 3^(round - 1), counts above 0 of at most 64 points. */
static int proper(const struct tarski_run *run) {
    unsigned points = 0;
    for (size_t k = 0; k < run->rows; k++) {
        if (run->patterns[k] >= power(run->round - 1) || (k && run->patterns[k - 1] >= run->patterns[k]) || !run->counts[k])
            return 0;
        points += run->counts[k];
    }
    return points <= 64;
}

/* The rows after a round, of which these are all answers: 0 where no counts fit. */
static int end_of_round(const struct tarski_run *run, const int64_t *answers, struct tarski_run *after) {
    int64_t e[MOST], g[MOST];
    uint16_t products[MOST];
    if (!proper(run))
        return 0;
    adapt(run->patterns, run->rows, products, answers, e, g);
    after->rows = 0;
    for (unsigned sign = 0; sign < 3; sign++)
        for (size_t k = 0; k < run->rows; k++) {
            if (g[k] < 0 || g[k] > run->counts[k] || e[k] < -g[k] || e[k] > g[k] || (g[k] + e[k]) % 2)
                return 0;
            int64_t count = sign == 0 ? run->counts[k] - g[k] : sign == 1 ? (g[k] + e[k]) / 2 : (g[k] - e[k]) / 2;
            if (count) {
                after->patterns[after->rows] = (uint16_t)(run->patterns[k] + sign * power(run->round - 1));
                after->counts[after->rows++] = (uint16_t)count;
            }
        }
    return 1;
}

/* ---- run records */

enum { RUNNING = 0, DONE = 1, CLOSED = 2 };

static int runs(const struct tarski_run *run) {
    if (run->phase != RUNNING || run->polynomials < 1 || run->polynomials > 8 || run->round > run->polynomials)
        return 0;
    if (run->points > 64 || run->rows > 64)
        return 0;
    if (run->round == 0)
        return run->answered == 0 && run->asked == 0;
    if (run->answered >= 2 * run->rows || run->asked > 128 * run->round + run->answered)
        return 0;
    for (size_t k = 0; k < run->rows; k++)
        if (run->products[k] >= power(run->round - 1))
            return 0;
    return 1;
}

static int done(const struct tarski_run *run) {
    return run->phase == DONE && run->rows <= 64;
}

static struct tarski_step refused(unsigned number) {
    struct tarski_step step;
    memset(&step, 0, sizeof step);
    step.kind = TARSKI_REFUSED;
    step.value.refusal = (uint16_t)number;
    return step;
}

static struct tarski_step asks(unsigned product) {
    struct tarski_step step;
    memset(&step, 0, sizeof step);
    step.kind = TARSKI_ASK;
    step.value.product.number = (uint16_t)product;
    return step;
}

static struct tarski_step finished(void) {
    struct tarski_step step;
    memset(&step, 0, sizeof step);
    step.kind = TARSKI_DONE;
    return step;
}

static struct tarski_step closed(struct tarski_run *run, unsigned number) {
    run->phase = CLOSED;
    run->rows = run->answered = 0;
    return refused(number);
}

/* What an answer to a record must give; the record becomes what it must leave. */
static struct tarski_step answered(struct tarski_run *run, int64_t answer) {
    struct tarski_run before = *run;
    int64_t answers[2 * MOST];
    if (!runs(run))
        return refused(7);
    run->asked++;
    run->answered = 0;
    if (run->round == 0) {
        if (answer < 0 || answer > 64)
            return closed(run, 8);
        run->points = (uint64_t)answer;
        run->rows = answer != 0;
        run->patterns[0] = run->products[0] = 0;
        run->counts[0] = (uint16_t)answer;
        run->round = answer != 0;
        run->phase = answer ? RUNNING : DONE;
        return answer ? asks(1) : finished();
    }
    if (answer < -(int64_t)run->points || answer > (int64_t)run->points)
        return closed(run, 9);
    for (size_t k = 0; k < before.answered; k++)
        answers[k] = before.answers[k];
    answers[before.answered] = answer;
    if (before.answered + 1 < 2 * before.rows) {
        size_t next = run->answered = before.answered + 1;
        run->answers[before.answered] = (int8_t)answer;
        return asks(run->products[next % run->rows] + (next < run->rows ? 1 : 2) * power(run->round - 1));
    }
    if (!end_of_round(&before, answers, run))
        return closed(run, 10);
    if (run->round == run->polynomials) {
        run->phase = DONE;
        return finished();
    }
    adapt(run->patterns, run->rows, run->products, NULL, NULL, NULL);
    run->round++;
    return asks(run->products[0] + power(run->round - 1));
}

/* Numbers of any kind, most of them in their limits. */
static int64_t fill(struct tarski_run *run) {
    memset(run, 0, sizeof *run);
    run->polynomials = draw(10) ? 1 + draw(8) : draw(12);
    run->phase = (uint8_t)(draw(12) ? draw(3) : draw(256));
    run->round = draw(10) ? draw(run->polynomials + 1) : draw(12);
    run->points = draw(10) ? draw(65) : 65 + draw(1000000);
    run->rows = draw(10) ? draw(65) : 65 + draw(1000000);
    run->answered = run->round && draw(10) ? draw(2 * (run->rows % 65) + 1) : draw(3) ? 0 : draw(1000000);
    run->asked = draw(10) ? draw(600) * (run->round != 0) : draw(0);
    for (size_t k = 0; k < 64; k++) {
        run->patterns[k] = (uint16_t)draw(65536);
        run->counts[k] = (uint16_t)draw(65536);
        run->products[k] = (uint16_t)(run->round && run->round <= 9 && draw(200) ? draw(power(run->round - 1)) : draw(65536));
    }
    for (size_t k = 0; k < 128; k++)
        run->answers[k] = (int8_t)((int)draw(256) - 128);
    return draw(6) ? (int64_t)draw(130) - 65 : (int64_t)draw(0);
}

/* A record in the middle or at the end of a round, as a truthful run leaves it, and the answer that is due; then, in half of them, one number of
 * either is another. */
static int64_t fill_truthful(struct tarski_run *run) {
    int64_t e[MOST], g[MOST], answers[2 * MOST];
    memset(run, 0, sizeof *run);
    run->polynomials = 1 + draw(8);
    run->round = 1 + draw(run->polynomials);
    unsigned below = power(run->round - 1);
    size_t rows = 1 + draw(draw(64) ? 6 : 64);
    run->rows = rows = rows < below ? rows : below;
    for (unsigned pattern = 0, k = 0; k < rows; pattern++)
        if (draw(below - pattern) < rows - k)
            run->patterns[k++] = (uint16_t)pattern;
    run->points = rows;
    for (size_t k = 0; k < rows; k++)
        run->counts[k] = 1;
    for (uint64_t more = draw(65 - rows); more; more--, run->points++)
        run->counts[draw(rows)]++;
    adapt(run->patterns, rows, run->products, NULL, NULL, NULL);
    for (size_t k = 0; k < rows; k++) {
        g[k] = (int64_t)draw(run->counts[k] + 1u);
        e[k] = 2 * (int64_t)draw((uint64_t)g[k] + 1) - g[k];
    }
    for (size_t k = 0; k < rows; k++) {
        answers[k] = answers[rows + k] = 0;
        for (size_t c = 0; c < rows; c++) {
            answers[k] += sign_on(run->products[k], run->patterns[c]) * e[c];
            answers[rows + k] += sign_on(run->products[k], run->patterns[c]) * g[c];
        }
    }
    run->answered = draw(4) ? 2 * rows - 1 : draw(2 * rows);
    run->asked = draw(128 * run->round + 1);
    for (size_t k = 0; k < 2 * rows; k++)
        run->answers[k] = (int8_t)answers[k];
    switch (draw(12)) {
    case 0: run->answers[draw(2 * rows)] += draw(2) ? 1 : -1; break;
    case 1: run->answers[draw(2 * rows)] += draw(2) ? 2 : -2; break;
    case 2: run->counts[draw(rows)] = (uint16_t)draw(4); break;
    case 3: run->patterns[draw(rows)] = (uint16_t)draw(below + 1); break;
    case 4: run->products[draw(rows)] = (uint16_t)draw(below + 1); break;
    case 5: answers[run->answered] += (int64_t)draw(5) - 2; break;
    default: break;
    }
    return answers[run->answered];
}

static void check_rows(const struct tarski_run *run) {
    size_t position = draw(70);
    struct tarski_row row = tarski_row(run, position);
    unsigned refusal = !done(run) ? 7 : position >= run->rows ? 14 : 0;
    same("refusal of a row", refusal, row.refusal);
    same("pattern of a row", refusal ? 0 : run->patterns[position], row.pattern.number);
    same("count of a row", refusal ? 0 : run->counts[position], row.count);

    struct tarski_pattern patterns[80];
    uint16_t counts[80];
    memset(patterns, 0x5a, sizeof patterns);
    memset(counts, 0xa5, sizeof counts);
    size_t first = draw(80), second = draw(80);
    struct tarski_copied copied = tarski_rows(run, patterns, first, counts, second);
    refusal = !done(run) ? 7 : first < run->rows || second < run->rows ? 15 : 0;
    same("refusal of a copy", refusal, copied.refusal);
    same("rows copied", refusal ? 0 : (long long)run->rows, (long long)copied.rows);
    for (size_t k = 0; k < 80; k++) {
        int kept = refusal || k >= run->rows;
        same("pattern copied", kept ? 0x5a5a : run->patterns[k], patterns[k].number);
        same("count copied", kept ? 0xa5a5 : run->counts[k], counts[k]);
    }
    same("questions", (long long)run->asked, (long long)tarski_asked(run));
}

/* The step of an answer and the record after it, beside what they must be. A late answer leaves every byte; else the record is compared as far as it
 * counts. Returns which case it was. */
enum { WITHIN_ROUND, NEXT_ROUND, ENDS_DONE, LATE, BY_8, BY_9, BY_10, BY_10_IMPROPER, CASES };

static int check_answer(struct tarski_run *run, int64_t answer) {
    struct tarski_run before = *run, want = *run;
    struct tarski_step due = answered(&want, answer), step = tarski_answer(run, answer);
    same("kind of a step", due.kind, step.kind);
    same("number of a step", due.value.product.number, step.value.product.number);
    if (!runs(&before)) {
        same("record of a late answer", 0, memcmp(&before, run, sizeof before));
        return LATE;
    }
    same("polynomials of a record", (long long)want.polynomials, (long long)run->polynomials);
    same("questions counted", (long long)want.asked, (long long)run->asked);
    same("phase of a record", want.phase, run->phase);
    same("round of a record", (long long)want.round, (long long)run->round);
    same("points of a record", (long long)want.points, (long long)run->points);
    same("rows of a record", (long long)want.rows, (long long)run->rows);
    same("answers of a record", (long long)want.answered, (long long)run->answered);
    for (size_t k = 0; k < want.rows; k++) {
        same("pattern of a record", want.patterns[k], run->patterns[k]);
        same("count of a record", want.counts[k], run->counts[k]);
        if (want.phase == RUNNING)
            same("product of a record", want.products[k], run->products[k]);
    }
    for (size_t k = 0; k < want.answered; k++)
        same("answer of a record", want.answers[k], run->answers[k]);
    if (due.kind == TARSKI_ASK)
        return want.answered ? WITHIN_ROUND : NEXT_ROUND;
    if (due.kind == TARSKI_DONE)
        return ENDS_DONE;
    return due.value.refusal == 8 ? BY_8 : due.value.refusal == 9 ? BY_9 : proper(&before) ? BY_10 : BY_10_IMPROPER;
}

int main(int words, char **word) {
    unsigned long rounds = words > 1 ? strtoul(word[1], NULL, 10) : 200000;
    state = words > 2 ? strtoull(word[2], NULL, 10) | 1 : 20261115;
    unsigned long cards[19] = {0}, answers[CASES] = {0}, served = 0;
    int seen = 1;
    for (unsigned long k = 0; k < rounds; k++) {
        struct tarski_run run;
        cards[forged_card()]++;
        int64_t answer = draw(4) ? fill(&run) : fill_truthful(&run);
        served += (unsigned long)done(&run);
        check_rows(&run);
        answers[check_answer(&run, answer)]++;
    }
    printf("forged: %lu opened cards (%lu answered, %lu refused by 3, %lu by 13) and as many records (%lu served rows; answers: %lu within a round, %lu "
           "that began the next, %lu done, %lu late, %lu by 8, %lu by 9, %lu by 10 for their counts, %lu by 10 for their rows): no difference\n",
           rounds, cards[0], cards[3], cards[13], served, answers[WITHIN_ROUND], answers[NEXT_ROUND], answers[ENDS_DONE], answers[LATE], answers[BY_8],
           answers[BY_9], answers[BY_10], answers[BY_10_IMPROPER]);
    printf("forged: as many lists of products on opened cards (%lu written, %lu refused by the card, %lu by 13, %lu by 15): no difference\n", lists[LISTED],
           lists[LIST_BY_CARD], lists[LIST_BY_13], lists[LIST_BY_15]);
    for (size_t k = 0; k < LISTS; k++)
        seen = seen && lists[k];
    for (size_t k = 0; k < CASES; k++)
        seen = seen && answers[k];
    if (!seen || !cards[0] || !cards[1] || !cards[3] || !cards[6] || !cards[13] || !cards[16] || !cards[17] || !cards[18] || !served) {
        printf("forged: a case never occurred\n");
        return 1;
    }
    return 0;
}
