/* A product kept as a pattern.
 * refused: tarski_product
 * refused: tarski_pattern */
#include "tarski.h"

struct tarski_pattern kept(struct tarski_row row, struct tarski_step step);

struct tarski_pattern kept(struct tarski_row row, struct tarski_step step) {
    struct tarski_pattern pattern = row.pattern;
#ifdef RIGHT
    pattern.number = step.value.product.number;
#else
    pattern = step.value.product;
#endif
    return pattern;
}
