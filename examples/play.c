/* Plays a whole card from standard input, by the library: the same printout as askcard. */
#include <inttypes.h>
#include <stdio.h>

#include "tarski.h"

static int refused(uint16_t number) {
    printf("R %u\n", (unsigned)number);
    fprintf(stderr, "play: %s\n", tarski_refusal_text(number));
    return 0;
}

int main(void) {
    uint8_t card[TARSKI_LONGEST_CARD + 1];
    size_t length = fread(card, 1, sizeof card, stdin);
    if (ferror(stdin)) {
        perror("play: standard input");
        return 1;
    }
    struct tarski_opened opened = tarski_open(card, length);
    if (opened.refusal)
        return refused(opened.refusal);
    struct tarski_run run;
    struct tarski_step step = tarski_start(&run, opened.polynomials);
    while (step.kind == TARSKI_ASK) {
        struct tarski_counts answer = tarski_ask(&opened, step.value.product);
        if (answer.refusal)
            return refused(answer.refusal);
        printf("Q %u %" PRId64 "\n", (unsigned)step.value.product.number, answer.number);
        step = tarski_answer(&run, answer.number);
    }
    if (step.kind == TARSKI_REFUSED)
        return refused(step.value.refusal);
    struct tarski_pattern patterns[TARSKI_MOST_ROWS];
    uint16_t counts[TARSKI_MOST_ROWS];
    struct tarski_copied copied = tarski_rows(&run, patterns, TARSKI_MOST_ROWS, counts, TARSKI_MOST_ROWS);
    if (copied.refusal)
        return refused(copied.refusal);
    for (size_t k = 0; k < copied.rows; k++)
        printf("S %u %u\n", (unsigned)patterns[k].number, (unsigned)counts[k]);
    printf("E %zu\n", tarski_asked(&run));
    return fflush(stdout) ? 1 : 0;
}
