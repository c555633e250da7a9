/* How much stack the calls use: each runs on a stack filled with a byte, on cards and lists that go as deep as any. Prints the most, and fails where it
 * is above TARSKI_MOST_STACK. Its arguments are cards. */
#define _XOPEN_SOURCE 700
#include <stdio.h>
#include <stdlib.h>
#include <string.h>
#include <ucontext.h>

#include "tarski.h"

enum { ROOM = 1 << 20, PAINT = 0xa5 };

static unsigned char *stack;
static ucontext_t here, there;
static size_t most;

/* The call to be measured. */
static void (*call)(void);

static void enter(void) {
    call();
}

static size_t used(void (*measured)(void)) {
    size_t free_bytes = 0;
    memset(stack, PAINT, ROOM);
    call = measured;
    getcontext(&there);
    there.uc_stack.ss_sp = stack;
    there.uc_stack.ss_size = ROOM;
    there.uc_link = &here;
    makecontext(&there, enter, 0);
    swapcontext(&here, &there);
    while (free_bytes < ROOM && stack[free_bytes] == PAINT)
        free_bytes++;
    return ROOM - free_bytes;
}

static void see(const char *name, void (*measured)(void)) {
    size_t bytes = used(measured);
    printf("%-9s %zu\n", name, bytes);
    if (most < bytes)
        most = bytes;
}

/* ---- what the calls are made on */

static uint8_t card[TARSKI_LONGEST_CARD + 1];
static size_t length;
static struct tarski_opened opened;
static struct tarski_run run;
static struct tarski_step step;
static struct tarski_pattern patterns[64];
static struct tarski_product products[64];
static uint16_t counts[64];
static int64_t numbers[64], found[64];
static const size_t degrees[8] = {6, 6, 6, 6, 6, 6, 6, 6};
static int64_t coefficients[56], points[64];
static int64_t answer;
static uint64_t sum; /* so that no result is dropped */

static void nothing(void) { sum++; }
static void check(void) { sum += tarski_check(card, length).points; }
static void value(void) { sum += (uint64_t)tarski_value(card, length, 0, 100).number; }
static void value_at(void) { sum += (uint64_t)tarski_value_at(card, length, 0, 100, -100).number; }
static void query(void) { sum += (uint64_t)tarski_query(card, length, products[1]).number; }
static void open(void) { opened = tarski_open(card, length); }
static void ask(void) { sum += (uint64_t)tarski_ask(&opened, products[1]).number; }
static void query_all(void) { sum += tarski_query_all(card, length, products, 64, numbers, 64).position; }
static void ask_all(void) { sum += tarski_ask_all(&opened, products, 64, numbers, 64).position; }
static void adapted(void) { sum += tarski_adapted(8, patterns, 64, products, 64); }
static void solve(void) { sum += tarski_solve(8, patterns, 64, numbers, 64, found, 64); }
static void put(void) { sum += tarski_write(degrees, 8, coefficients, 56, points, 64, card, sizeof card).length; }
static void draw(void) { sum += tarski_draw(7, 8, 64, 6, card, sizeof card).length; }
static void start(void) { step = tarski_start(&run, 8); }
static void give(void) { step = tarski_answer(&run, answer); }
static void asked(void) { sum += tarski_asked(&run); }
static void row(void) { sum += tarski_row(&run, 0).count; }
static void rows(void) { sum += tarski_rows(&run, patterns, 64, counts, 64).rows; }

/* Points with these patterns of 8 polynomials, asked to the end. */
static void play(const char *name) {
    size_t deepest = 0;
    memset(&opened, 0, sizeof opened);
    opened.polynomials = 8, opened.points = 64;
    for (int k = 0; k < 64; k++)
        for (unsigned j = 0, rest = patterns[k].number; j < 8; j++, rest /= 3) {
            if (rest % 3 == 1)
                opened.positive[j] |= (uint64_t)1 << k;
            if (rest % 3 == 2)
                opened.negative[j] |= (uint64_t)1 << k;
        }
    see("adapted", adapted);
    for (int k = 0; k < 64; k++)
        numbers[k] = tarski_ask(&opened, products[k]).number;
    see("solve", solve);
    for (int k = 0; k < 64; k++)
        if (found[k] != 1)
            puts("not solved"), exit(1);
    see("ask", ask), see("ask_all", ask_all);
    see("start", start);
    while (step.kind == TARSKI_ASK) {
        size_t bytes;
        answer = tarski_ask(&opened, step.value.product).number;
        bytes = used(give);
        if (deepest < bytes)
            deepest = bytes;
    }
    if (step.kind != TARSKI_DONE)
        puts("not done"), exit(1);
    printf("%-9s %zu, %zu questions on %s\n", "answer", deepest, tarski_asked(&run), name);
    if (most < deepest)
        most = deepest;
    see("asked", asked);
    see("row", row);
    see("rows", rows);
}

int main(int count, char **words) {
    stack = malloc(ROOM);
    if (!stack || count < 2)
        return 2;
    printf("%-9s %zu\n", "no call", used(nothing));
    for (int k = 1; k < count; k++) {
        FILE *file = fopen(words[k], "rb");
        if (!file)
            return 2;
        length = fread(card, 1, sizeof card, file);
        fclose(file);
        see("check", check), see("value", value), see("value_at", value_at), see("query", query), see("query_all", query_all), see("open", open);
        if (opened.refusal)
            return 2;
    }
    for (int k = 0; k < 56; k++)
        coefficients[k] = 1;
    see("write", put);
    if (tarski_check(card, TARSKI_LONGEST_LINE_CARD).points != 64)
        puts("not written"), exit(1);
    see("draw", draw);
    for (int k = 0; k < 64; k++)
        patterns[k].number = (uint16_t)k;
    play("0 to 63");
    for (int k = 0; k < 64; k++)
        patterns[k].number = (uint16_t)(k * 102 + k % 7);
    play("a list from 0 to 6426");
    for (int k = 0; k < 64; k++)
        patterns[k].number = (uint16_t)(6560 - 63 + k);
    play("6497 to 6560");
    printf("at most %zu bytes of stack are used by a call; the header says %d\n", most, TARSKI_MOST_STACK);
    return most <= TARSKI_MOST_STACK && sum ? 0 : 1;
}
