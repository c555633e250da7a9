/* A pattern asked as a product.
 * refused: tarski_product
 * refused: tarski_pattern */
#include "tarski.h"

struct tarski_counts asked(const struct tarski_opened *card, struct tarski_row row, struct tarski_step step);

struct tarski_counts asked(const struct tarski_opened *card, struct tarski_row row, struct tarski_step step) {
#ifdef RIGHT
    (void)row;
    return tarski_ask(card, step.value.product);
#else
    (void)step;
    return tarski_ask(card, row.pattern);
#endif
}
