// A pattern asked as a product.
// refused: E0308
// refused: expected `Product`, found `Pattern`
#![allow(dead_code)]
#![allow(unexpected_cfgs)]
#[path = "../../include/tarski.rs"]
mod tarski;

pub fn asked(card: &tarski::Opened, product: tarski::Product, pattern: tarski::Pattern) -> Result<tarski::Counts, tarski::Refusal> {
    let _ = (product, pattern);
    #[cfg(right)]
    return card.ask(product);
    #[cfg(not(right))]
    return card.ask(pattern);
}
