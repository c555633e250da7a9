/* Asks lists of products of cards through the library, for tools/compare_lists.py.
 *
 *     lists FILE        prints for each case in FILE a line: the refusal, the position, and what the slice then holds
 *
 * A case is the lengths of the card, of the list and of the slice, two bytes each, high byte first; the card; and the products, two bytes each. Before
 * the call number k of the slice is 1000 + k. Each list is asked on the card and on the card opened, and product by product. Exits 1 where these differ,
 * and where a call has written past the slice. */
#include <stdio.h>
#include <stdlib.h>
#include <string.h>

#include "tarski.h"

enum { MOST = 1024, PAST = 8 };

static int wrong(const char *what, unsigned long line) {
    printf("lists: case %lu: %s\n", line, what);
    return 1;
}

/* Two bytes of the file; -1 at its end. */
static int two(FILE *file) {
    int high = getc(file), low = getc(file);
    return high == EOF || low == EOF ? -1 : 256 * high + low;
}

static int64_t first[MOST + PAST], second[MOST + PAST];
static struct tarski_product products[MOST];

int main(int count, char **words) {
    static uint8_t card[65536];
    FILE *file = count == 2 ? fopen(words[1], "rb") : NULL;
    if (!file)
        return 2;
    for (unsigned long line = 0;; line++) {
        int bytes = two(file), listed = two(file), room = two(file);
        if (bytes < 0)
            return 0;
        if (listed < 0 || listed > MOST || room < 0 || room > MOST || fread(card, 1, (size_t)bytes, file) != (size_t)bytes)
            return 2;
        for (int k = 0; k < listed; k++)
            products[k].number = (uint16_t)two(file);
        for (int k = 0; k < MOST + PAST; k++)
            first[k] = second[k] = 1000 + k;
        struct tarski_opened opened = tarski_open(card, (size_t)bytes);
        struct tarski_numbered got = tarski_query_all(card, (size_t)bytes, products, (size_t)listed, first, (size_t)room);
        struct tarski_numbered asked = tarski_ask_all(&opened, products, (size_t)listed, second, (size_t)room);
        if (got.refusal != asked.refusal || got.position != asked.position || memcmp(first, second, sizeof first))
            return wrong("on the opened card another answer", line);
        for (int k = room; k < MOST + PAST; k++)
            if (first[k] != 1000 + k)
                return wrong("written past the slice", line);
        for (int k = 0; !got.refusal && k < listed; k++) {
            struct tarski_counts one = tarski_query(card, (size_t)bytes, products[k]);
            if (one.refusal || one.number != first[k])
                return wrong("a query shows another number", line);
        }
        if (got.refusal == TARSKI_WRONG_PRODUCT && tarski_query(card, (size_t)bytes, products[got.position]).refusal != TARSKI_WRONG_PRODUCT)
            return wrong("a query of the product at the position is not refused", line);
        printf("%u %zu", (unsigned)got.refusal, got.position);
        for (int k = 0; k < room; k++)
            printf(" %lld", (long long)first[k]);
        putchar('\n');
    }
}
