/* A list of products handed to the solver as patterns.
 * refused: tarski_product
 * refused: tarski_pattern */
#include "tarski.h"

uint16_t solved(const struct tarski_pattern *patterns, const struct tarski_product *products, const int64_t *numbers, int64_t *out);

uint16_t solved(const struct tarski_pattern *patterns, const struct tarski_product *products, const int64_t *numbers, int64_t *out) {
#ifdef RIGHT
    (void)products;
    return tarski_solve(3, patterns, 3, numbers, 3, out, 3);
#else
    (void)patterns;
    return tarski_solve(3, products, 3, numbers, 3, out, 3);
#endif
}
