// One line of the table: `bench LINE SIDE TIMES [S ROWS SEED]` does the work of LINE that often, by the proved library (SIDE proved) or in plain
// Rust (SIDE plain), and prints the nanoseconds that one took. `measured` is what callgrind counts.
#[allow(dead_code)]
mod plain;

#[allow(dead_code)]
#[path = "../include/tarski.rs"]
mod tarski;

use std::hint::black_box;
use std::time::Instant;

const HEAVIEST: &[u8] = include_bytes!("../examples/heaviest-line.card");
const HEAVIEST_PLANE: &[u8] = include_bytes!("../examples/heaviest-plane.card");
const ORACLE: &str = include_str!("oracle-593.txt");

#[inline(never)]
#[no_mangle]
fn measured(work: &mut dyn FnMut()) {
    work()
}

/// The longest card: 8 polynomials of degree 6 and 64 points.
fn longest() -> Vec<u8> {
    let mut card = vec![1, 8, 64, 0];
    for j in 0..9u16 {
        card.extend((22 + 29 * j).to_be_bytes());
    }
    for j in 0..8i32 {
        card.push(6);
        for k in 0..7i32 {
            card.extend((1000 * (k - 3) * (j + 1) + 1).to_be_bytes());
        }
    }
    card.extend((0..64).map(|x: i8| (x - 32) as u8));
    assert_eq!(card.len(), 318);
    card
}

/// The longest card of points in the plane: 8 polynomials of 9 terms and 64 points.
fn longest_plane() -> Vec<u8> {
    let mut card = vec![2, 8, 64, 0];
    for j in 0..9u16 {
        card.extend((22 + 55 * j).to_be_bytes());
    }
    for j in 0..8i32 {
        card.push(9);
        for k in 0..9i32 {
            card.extend([k as u8 / 3, k as u8 % 3]);
            card.extend((1000 * (k - 3) * (j + 1) + 1).to_be_bytes());
        }
    }
    card.extend((0..64).flat_map(|k: i8| [(k / 8 - 4) as u8, (k % 8 - 4) as u8]));
    assert_eq!(card.len(), 590);
    card
}

/// A card from its bytes to its rows, by the proved library and in plain Rust: so many questions.
fn through(card: &[u8], asked: usize) {
    let opened = tarski::open(card).unwrap();
    let (mut run, mut step) = tarski::Run::start(opened.polynomials());
    while let tarski::Step::Ask(product) = step {
        step = run.answer(opened.ask(product).unwrap().number);
    }
    assert_eq!(run.asked(), asked);
}

fn through_plain(card: &[u8], asked: usize) {
    let opened = plain::open(card).ok().unwrap();
    let mut run = plain::Run::start(opened.s);
    let mut product = 0;
    while let plain::Step::Ask(next) = run.answer(plain::ask(&opened, product).unwrap().number) {
        product = next;
    }
    assert_eq!(run.asked, asked);
}

fn next(state: &mut u64) -> u64 {
    *state = state.wrapping_mul(6364136223846793005).wrapping_add(1442695040888963407);
    *state >> 33
}

/// So many patterns of s polynomials, rising, drawn from the seed; seed 0 gives products of lists of signs: the first so many without a sign 0.
fn patterns(s: usize, rows: usize, seed: u64) -> Vec<u16> {
    let all = 3u64.pow(s as u32);
    let mut list = Vec::new();
    let mut state = seed;
    if seed == 0 {
        list.extend((0..all as u16).filter(|&p| (0..s as u32).all(|j| p / 3u16.pow(j) % 3 != 0 || j as usize >= 6)).take(rows));
    }
    while list.len() < rows {
        let p = (next(&mut state) % all) as u16;
        if !list.contains(&p) {
            list.push(p);
        }
    }
    list.sort();
    list
}

/// The signs of patterns, as an opened card has them.
fn opened(s: usize, patterns: &[u16]) -> plain::Opened {
    let mut card = plain::Opened { s, n: patterns.len(), positive: [0; 8], negative: [0; 8] };
    for (k, &p) in patterns.iter().enumerate() {
        for j in 0..s {
            match p / 3u16.pow(j as u32) % 3 {
                1 => card.positive[j] |= 1 << k,
                2 => card.negative[j] |= 1 << k,
                _ => {}
            }
        }
    }
    card
}

fn signs(card: &plain::Opened) -> tarski::Opened {
    tarski::Opened::of_signs(card.s, card.n, card.positive, card.negative)
}

/// The queries of patterns on their adapted list.
fn queries(s: usize, list: &[u16]) -> Vec<i64> {
    let mut products = vec![0; list.len()];
    plain::adapted(list, s, 0, &mut products);
    let card = opened(s, list);
    products.iter().map(|&a| plain::ask(&card, a).unwrap().number).collect()
}

/// The candidate's sheet: 593 products of 8 polynomials.
fn sheet() -> Vec<u16> {
    let mut state = 593;
    (0..593).map(|_| (next(&mut state) % 6561) as u16).collect()
}

fn main() {
    let words: Vec<String> = std::env::args().collect();
    let number = |k: usize, other: u64| words.get(k).map_or(other, |w| w.parse().unwrap());
    let proved = words[2] == "proved";
    let times = number(3, 1);
    let (s, rows, seed) = (number(4, 8) as usize, number(5, 64) as usize, number(6, 1));
    let oracle = match words.get(4) {
        Some(_) => patterns(s, rows, seed),
        None => ORACLE.lines().map(|l| l.parse().unwrap()).collect(),
    };
    let card = longest();
    let plane = longest_plane();
    let products = sheet();
    let list: Vec<tarski::Product> = products.iter().map(|&a| tarski::Product(a)).collect();
    let mut numbers = [0; 593];
    let mut work: Box<dyn FnMut()> = match (words[1].as_str(), proved) {
        ("check", true) => Box::new(|| assert_eq!(tarski::check(black_box(&card)), Ok((8, 64)))),
        ("check", false) => Box::new(|| assert_eq!(plain::check(black_box(&card)), Ok((8, 64)))),
        ("check-plane", true) => Box::new(|| assert_eq!(tarski::check(black_box(&plane)), Ok((8, 64)))),
        ("check-plane", false) => Box::new(|| assert_eq!(plain::check(black_box(&plane)), Ok((8, 64)))),
        ("query", true) => {
            let opened = signs(&opened(s, &oracle));
            Box::new(move || assert!(opened.ask(black_box(tarski::Product(4373))).is_ok()))
        }
        ("query", false) => {
            let opened = opened(s, &oracle);
            Box::new(move || assert!(plain::ask(&opened, black_box(4373)).is_ok()))
        }
        ("solve", true) => {
            let list = patterns(s, rows, seed);
            let numbers = queries(s, &list);
            let list: Vec<tarski::Pattern> = list.into_iter().map(tarski::Pattern).collect();
            let mut out = [0; 64];
            Box::new(move || {
                tarski::solve(s, black_box(&list), black_box(&numbers), &mut out).unwrap();
                assert!(out[..rows].iter().all(|&c| c == 1));
            })
        }
        ("solve", false) => {
            let list = patterns(s, rows, seed);
            let numbers = queries(s, &list);
            let mut out = [0; 64];
            Box::new(move || {
                plain::solve(s, black_box(&list), black_box(&numbers), &mut out).unwrap();
                assert!(out[..rows].iter().all(|&c| c == 1));
            })
        }
        ("run", true) => {
            let opened = signs(&opened(s, &oracle));
            Box::new(move || {
                let (mut run, mut step) = tarski::Run::start(s);
                while let tarski::Step::Ask(product) = step {
                    step = run.answer(opened.ask(product).unwrap().number);
                }
                assert!(run.row(oracle.len() - 1).is_ok() && run.row(oracle.len()).is_err());
            })
        }
        ("run", false) => {
            let opened = opened(s, &oracle);
            Box::new(move || {
                let mut run = plain::Run::start(s);
                let mut product = 0;
                while let plain::Step::Ask(next) = run.answer(plain::ask(&opened, product).unwrap().number) {
                    product = next;
                }
                assert_eq!(run.rows, oracle.len());
            })
        }
        ("card", true) => Box::new(|| through(black_box(HEAVIEST), 463)),
        ("card", false) => Box::new(|| through_plain(black_box(HEAVIEST), 463)),
        ("card-plane", true) => Box::new(|| through(black_box(HEAVIEST_PLANE), 593)),
        ("card-plane", false) => Box::new(|| through_plain(black_box(HEAVIEST_PLANE), 593)),
        ("open", true) => Box::new(|| assert!(tarski::open(black_box(&card)).is_ok())),
        ("open", false) => Box::new(|| assert!(plain::open(black_box(&card)).is_ok())),
        ("open-plane", true) => Box::new(|| assert!(tarski::open(black_box(&plane)).is_ok())),
        ("open-plane", false) => Box::new(|| assert!(plain::open(black_box(&plane)).is_ok())),
        ("queries", true) => {
            let opened = tarski::open(&card).unwrap();
            Box::new(move || {
                for (&a, number) in black_box(&list).iter().zip(&mut numbers) {
                    *number = opened.ask(a).unwrap().number;
                }
            })
        }
        ("queries", false) => {
            let opened = plain::open(&card).ok().unwrap();
            Box::new(move || {
                for (&a, number) in black_box(&products).iter().zip(&mut numbers) {
                    *number = plain::ask(&opened, a).ok().unwrap().number;
                }
            })
        }
        ("list", true) => {
            let opened = tarski::open(&card).unwrap();
            Box::new(move || opened.ask_all(black_box(&list), &mut numbers).unwrap())
        }
        ("list", false) => {
            let opened = plain::open(&card).ok().unwrap();
            Box::new(move || plain::ask_all(&opened, black_box(&products), &mut numbers).unwrap())
        }
        ("sheet", true) => Box::new(move || tarski::query_all(black_box(&card), &list, &mut numbers).unwrap()),
        ("sheet", false) => Box::new(move || {
            let opened = plain::open(black_box(&card)).ok().unwrap();
            plain::ask_all(&opened, &products, &mut numbers).unwrap()
        }),
        _ => panic!("no such line"),
    };
    let from = Instant::now();
    for _ in 0..times {
        measured(&mut *work);
    }
    println!("{:.1}", from.elapsed().as_nanos() as f64 / times as f64);
}
