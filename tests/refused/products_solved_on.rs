// A list of products handed to the solver as patterns.
// refused: E0308
// refused: expected `&[Pattern]`, found `&[Product]`
#![allow(dead_code)]
#![allow(unexpected_cfgs)]
#[path = "../../include/tarski.rs"]
mod tarski;

pub fn solved(patterns: &[tarski::Pattern], products: &[tarski::Product], numbers: &[i64], out: &mut [i64]) -> Result<(), tarski::Refusal> {
    let _ = (patterns, products);
    #[cfg(right)]
    return tarski::solve(3, patterns, numbers, out);
    #[cfg(not(right))]
    return tarski::solve(3, products, numbers, out);
}
