// Plays a whole card from standard input, by the library: the same printout as askcard.
#[allow(dead_code)]
#[path = "../include/tarski.rs"]
mod tarski;

use std::io::Read;
use tarski::{Pattern, Refusal, Run, Step, MOST_ROWS};

fn play(card: &[u8]) -> Result<(), Refusal> {
    let opened = tarski::open(card)?;
    let (mut run, mut step) = Run::start(opened.polynomials());
    while let Step::Ask(product) = step {
        let answer = opened.ask(product)?;
        println!("Q {} {}", product.0, answer.number);
        step = run.answer(answer.number);
    }
    if let Step::Refused(refusal) = step {
        return Err(refusal);
    }
    let (mut patterns, mut counts) = ([Pattern(0); MOST_ROWS], [0; MOST_ROWS]);
    let rows = run.rows(&mut patterns, &mut counts)?;
    for k in 0..rows {
        println!("S {} {}", patterns[k].0, counts[k]);
    }
    println!("E {}", run.asked());
    Ok(())
}

fn main() {
    let mut card = Vec::new();
    std::io::stdin().take(tarski::LONGEST_CARD as u64 + 1).read_to_end(&mut card).unwrap();
    if let Err(refusal) = play(&card) {
        println!("R {}", refusal.0);
        eprintln!("play: {refusal}");
    }
}
