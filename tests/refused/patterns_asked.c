/* A list of patterns asked as products.
 * refused: tarski_product
 * refused: tarski_pattern */
#include "tarski.h"

uint16_t asked(const struct tarski_opened *card, const struct tarski_pattern *patterns, const struct tarski_product *products, int64_t *out);

uint16_t asked(const struct tarski_opened *card, const struct tarski_pattern *patterns, const struct tarski_product *products, int64_t *out) {
#ifdef RIGHT
    (void)patterns;
    return tarski_ask_all(card, products, 3, out, 3).refusal;
#else
    (void)products;
    return tarski_ask_all(card, patterns, 3, out, 3).refusal;
#endif
}
