// A list of patterns asked as products.
// refused: E0308
// refused: expected `&[Product]`, found `&[Pattern]`
#![allow(dead_code)]
#![allow(unexpected_cfgs)]
#[path = "../../include/tarski.rs"]
mod tarski;

pub fn asked(card: &[u8], patterns: &[tarski::Pattern], products: &[tarski::Product], out: &mut [i64]) -> Result<(), tarski::ListRefusal> {
    let _ = (patterns, products);
    #[cfg(right)]
    return tarski::query_all(card, products, out);
    #[cfg(not(right))]
    return tarski::query_all(card, patterns, out);
}
