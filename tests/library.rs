// Calls every function of include/tarski.rs with results that are known, and sees each refusal once. With the word `texts` it prints what each number
// up to 99 means. Its arguments else are the cards of example 3.2.13 (X, X + 1, X − 2 at −3, 1, 3) and of the circle (X² + Y² − 25, X − Y at (−3, 4),
// (0, 0), (3, 4), (4, 3), (6, 1)).
#[path = "../include/tarski.rs"]
mod tarski;

use tarski::{Counts, ListRefusal, Opened, Pattern, Product, Refusal, Run, Step};

fn with(card: &[u8], place: usize, byte: u8) -> Vec<u8> {
    let mut changed = card.to_vec();
    changed[place] = byte;
    changed
}

fn cards(card: &[u8]) {
    let last = card.len() - 1;
    assert_eq!(tarski::check(card), Ok((3, 3)));
    assert_eq!(tarski::check(&card[..last]), Err(Refusal::WRONG_LENGTH));
    assert_eq!(tarski::check(&[]), Err(Refusal::WRONG_LENGTH));
    assert_eq!(tarski::check(&with(card, 0, 3)), Err(Refusal::WRONG_BYTE));
    assert_eq!(tarski::check(&with(card, 1, 9)), Err(Refusal::WRONG_COUNT));
    assert_eq!(tarski::check(&with(card, 4, 13)), Err(Refusal::WRONG_OFFSET));
    assert_eq!(tarski::check(&with(card, 13, 1)), Err(Refusal::WRONG_COEFFICIENT));
    assert_eq!(tarski::check(&with(card, 12, 7)), Err(Refusal::WRONG_DEGREE));
    assert_eq!(tarski::check(&with(card, 20, 0)), Err(Refusal::ZERO_TOP));
    assert_eq!(tarski::check(&with(card, last, 101)), Err(Refusal::WRONG_POINT));
    assert_eq!(tarski::value(card, 0, -3), Ok(-3));
    assert_eq!(tarski::value(card, 1, 5), Ok(6));
    assert_eq!(tarski::value(card, 2, -100), Ok(-102));
    assert_eq!(tarski::value(card, 3, 1), Err(Refusal::PAST_LAST));
    assert_eq!(tarski::value_at(card, 2, -100, 7), Ok(-102));
    assert_eq!(tarski::value_at(card, 2, 7, 101), Err(Refusal::WRONG_POINT));
    assert_eq!(tarski::query(card, Product(9)), Ok(Counts { number: -1, positive: 1, negative: 2, zero: 0 }));
    assert_eq!(tarski::query(card, Product(27)), Err(Refusal::WRONG_PRODUCT));
    let opened = tarski::open(card).unwrap();
    assert_eq!((opened.polynomials(), opened.points()), (3, 3));
    for number in 0..27 {
        assert_eq!(opened.ask(Product(number)), tarski::query(card, Product(number)));
    }
    assert_eq!(opened.ask(Product(27)), Err(Refusal::WRONG_PRODUCT));
    assert_eq!(tarski::open(&with(card, 3, 1)).err(), Some(Refusal::WRONG_BYTE));
    let signs = Opened::of_signs(1, 2, [3, 0, 0, 0, 0, 0, 0, 0], [0; 8]);
    assert_eq!(signs.ask(Product(0)), Ok(Counts { number: 2, positive: 2, negative: 0, zero: 0 }));
    assert_eq!(signs.ask(Product(1)), signs.ask(Product(0)));
    let signs = Opened::of_signs(1, 4, [1, 0, 0, 0, 0, 0, 0, 0], [2, 0, 0, 0, 0, 0, 0, 0]);
    assert_eq!(signs.ask(Product(1)), Ok(Counts { number: 0, positive: 1, negative: 1, zero: 2 }));
    assert_eq!(signs.ask(Product(2)), Ok(Counts { number: 2, positive: 2, negative: 0, zero: 2 }));
}

fn plane_cards(card: &[u8]) {
    let last = card.len() - 1;
    assert_eq!(tarski::check(card), Ok((2, 5)));
    assert_eq!(tarski::check(&card[..last]), Err(Refusal::WRONG_LENGTH));
    assert_eq!(tarski::check(&with(card, 10, 10)), Err(Refusal::WRONG_TERMS));
    assert_eq!(tarski::check(&with(card, 24, 5)), Err(Refusal::WRONG_TERMS));
    assert_eq!(tarski::check(&with(card, 18, 0)), Err(Refusal::WRONG_TERMS));
    assert_eq!(tarski::check(&with(&with(card, 13, 1), 28, 0)), Err(Refusal::WRONG_TERMS));
    assert_eq!(tarski::check(&with(card, 13, 1)), Err(Refusal::WRONG_COEFFICIENT));
    assert_eq!(tarski::check(&with(card, 46, 255)), Err(Refusal::WRONG_POINT));
    assert_eq!(tarski::value(card, 0, 3), Err(Refusal::WRONG_BYTE));
    assert_eq!(tarski::value_at(card, 0, 6, 1), Ok(12));
    assert_eq!(tarski::value_at(card, 1, -100, 100), Ok(-200));
    for far in [i64::MIN, -101, 101, i64::MAX] {
        assert_eq!(tarski::value_at(card, 0, far, 0), Err(Refusal::WRONG_POINT));
        assert_eq!(tarski::value_at(card, 1, 0, far), Err(Refusal::WRONG_POINT));
        assert_eq!(tarski::value_at(card, 2, far, far), Err(Refusal::PAST_LAST));
        assert_eq!(tarski::value_at(&card[..last], 2, far, far), Err(Refusal::WRONG_LENGTH));
    }
    assert_eq!(tarski::query(card, Product(1)), Ok(Counts { number: 0, positive: 1, negative: 1, zero: 3 }));
    let (opened, mut numbers) = (tarski::open(card).unwrap(), [4711; 9]);
    assert_eq!((opened.polynomials(), opened.points()), (2, 5));
    let products: Vec<Product> = (0..9).map(Product).collect();
    assert_eq!(opened.ask_all(&products, &mut numbers), Ok(()));
    assert_eq!(numbers, [5, 0, 2, 0, 1, 1, 4, 1, 1]);
    assert_eq!(tarski::open(&with(card, 28, 0)).err(), Some(Refusal::WRONG_TERMS));
}

/// A card that names n points: check gives n; opened, it has the different ones, of which product a is positive, negative and zero at so many.
fn counted(card: &[u8], n: usize, a: u16, counts: (u16, u16, u16)) {
    let (positive, negative, zero) = counts;
    let points = positive + negative + zero;
    let opened = tarski::open(card).unwrap();
    assert_eq!((tarski::check(card).unwrap().1, opened.points()), (n, points as usize));
    for (product, positive, negative, zero) in [(Product(0), points, 0, 0), (Product(a), positive, negative, zero)] {
        let counts = Counts { number: positive as i64 - negative as i64, positive, negative, zero };
        assert_eq!((tarski::query(card, product), opened.ask(product)), (Ok(counts), Ok(counts)));
    }
}

fn repeated(circle: &[u8]) {
    // X at points of the line; of the last but one, 1, 2 and 3 have one pattern
    let lines: [(&[i64], (u16, u16, u16)); 7] = [
        (&[5, 5], (1, 0, 0)),
        (&[0; 64], (0, 0, 1)),
        (&[-1, -1, 2], (1, 1, 0)),
        (&[-1, 2, 2], (1, 1, 0)),
        (&[-1, -1, 0, 0, 2, 2], (1, 1, 1)),
        (&[-9, 1, 2, 3], (3, 1, 0)),
        (&[-2, -2, -2, 0, 0, 3, 100, 100], (2, 1, 1)),
    ];
    let mut out = [0; tarski::LONGEST_LINE_CARD];
    for (points, counts) in lines {
        let length = tarski::write(&[1], &[0, 1], points, &mut out).unwrap();
        counted(&out[..length], points.len(), 1, counts);
    }
    // X at points of the plane: with equal X, with equal Y, with one pattern, one of them twice, equal X beside a point that is there twice, all equal
    let planes: [(&[[i8; 2]], (u16, u16, u16)); 6] = [
        (&[[-4, -1], [-4, 0], [-4, 7]], (0, 3, 0)),
        (&[[-1, 4], [0, 4], [7, 4]], (1, 1, 1)),
        (&[[1, 1], [1, 2], [2, 1]], (3, 0, 0)),
        (&[[-1, 1], [-1, 1], [1, -1]], (1, 1, 0)),
        (&[[-2, -1], [-2, 4], [-2, 4], [0, 4]], (0, 2, 1)),
        (&[[3, -3]; 64], (1, 0, 0)),
    ];
    for (points, counts) in planes {
        let mut card = vec![2, 1, points.len() as u8, 0, 0, 8, 0, 15, 1, 1, 0, 0, 0, 0, 1];
        card.extend(points.iter().flatten().map(|&v| v as u8));
        counted(&card, points.len(), 1, counts);
    }
    counted(circle, 5, 1, (1, 1, 3));
    counted(&with(&with(circle, 44, 253), 45, 4), 5, 1, (1, 0, 3)); // (−3, 4) a second time in place of (0, 0)
    counted(&with(&with(circle, 44, 253), 45, 5), 5, 1, (2, 0, 3)); // (−3, 5) in place of (0, 0)
}

fn lists(card: &[u8]) {
    let opened = tarski::open(card).unwrap();
    // the list, the room, what is given and what stands in the slice then, where 4711 stood
    let see = |products: &[u16], room: usize, gives: Result<(), ListRefusal>, left: [i64; 4]| {
        let products: Vec<Product> = products.iter().map(|&a| Product(a)).collect();
        let (mut first, mut second) = ([4711; 4], [4711; 4]);
        assert_eq!((tarski::query_all(card, &products, &mut first[..room]), first), (gives, left));
        assert_eq!((opened.ask_all(&products, &mut second[..room]), second), (gives, left));
    };
    let bad = |position| Err(ListRefusal { refusal: Refusal::WRONG_PRODUCT, position: Some(position) });
    let short = Err(ListRefusal { refusal: Refusal::TOO_SHORT, position: None });
    see(&[9, 0, 1], 4, Ok(()), [-1, 3, 1, 4711]);
    see(&[9, 9, 26, 9], 4, Ok(()), [-1, -1, 3, -1]);
    see(&[], 4, Ok(()), [4711; 4]);
    see(&[], 0, Ok(()), [4711; 4]);
    see(&[27, 0, 1], 4, bad(0), [4711; 4]);
    see(&[0, 27, 1], 4, bad(1), [4711; 4]);
    see(&[0, 26, 65535], 3, bad(2), [4711; 4]);
    see(&[0, 28, 27], 4, bad(1), [4711; 4]);
    see(&[9, 0, 1], 2, short, [4711; 4]);
    see(&[27, 0, 1], 2, short, [4711; 4]);
    let (mut out, refused) = ([4711; 2], ListRefusal { refusal: Refusal::WRONG_LENGTH, position: None });
    assert_eq!((tarski::query_all(&card[..41], &[Product(27); 3], &mut out), out), (Err(refused), [4711; 2]));
    assert_eq!(Refusal::from(refused), Refusal::WRONG_LENGTH);
    assert_eq!(bad(1).unwrap_err().to_string(), "refused by 13: the product number is above 3^s - 1, at position 1");
    assert_eq!(refused.to_string(), Refusal::WRONG_LENGTH.to_string());
}

fn solver(card: &[u8]) {
    let opened = tarski::open(card).unwrap();
    let list = [Pattern(13), Pattern(22), Pattern(26)];
    let mut products = [Product(4711); 4];
    assert_eq!(tarski::adapted(0, &list, &mut products), Err(Refusal::WRONG_COUNT));
    assert_eq!(tarski::adapted(2, &list, &mut products), Err(Refusal::WRONG_LIST));
    assert_eq!(tarski::adapted(3, &list, &mut products[..2]), Err(Refusal::TOO_SHORT));
    assert_eq!(products, [Product(4711); 4]);
    assert_eq!(tarski::adapted(3, &list, &mut products), Ok(()));
    assert_eq!(products, [Product(0), Product(1), Product(9), Product(4711)]);
    let numbers: Vec<i64> = products[..3].iter().map(|&a| opened.ask(a).unwrap().number).collect();
    let mut found = [4711; 4];
    assert_eq!(tarski::solve(3, &list, &numbers, &mut found), Ok(()));
    assert_eq!(found, [1, 1, 1, 4711]);
    assert_eq!(tarski::solve(3, &list, &[2, 0, 4], &mut found), Ok(()));
    assert_eq!(found, [3, -2, 1, 4711]);
    assert_eq!(tarski::solve(9, &list, &numbers, &mut found), Err(Refusal::WRONG_COUNT));
    assert_eq!(tarski::solve(3, &list, &numbers[..2], &mut found), Err(Refusal::WRONG_LIST));
    assert_eq!(tarski::solve(3, &list, &numbers, &mut found[..2]), Err(Refusal::TOO_SHORT));
    assert_eq!(tarski::solve(3, &list, &[3, 0, 0], &mut found), Err(Refusal::NO_SOLUTION));
    assert_eq!(found, [3, -2, 1, 4711]);
}

fn written(card: &[u8]) {
    let (degrees, numbers, points) = ([1, 1, 1], [0, 1, 1, 1, -2, 1], [-3, 1, 3]);
    let mut out = [90; tarski::LONGEST_CARD + 1];
    assert_eq!(tarski::write(&[], &numbers, &points, &mut out), Err(Refusal::WRONG_COUNT));
    assert_eq!(tarski::write(&degrees, &numbers, &[0; 65], &mut out), Err(Refusal::WRONG_COUNT));
    assert_eq!(tarski::write(&[1, 7, 1], &numbers, &points, &mut out), Err(Refusal::WRONG_DEGREE));
    assert_eq!(tarski::write(&degrees, &numbers[..5], &points, &mut out), Err(Refusal::WRONG_LENGTH));
    assert_eq!(tarski::write(&degrees, &[0, 1, 1, i64::MIN, -2, 0], &points, &mut out), Err(Refusal::WRONG_COEFFICIENT));
    assert_eq!(tarski::write(&degrees, &[0, 0, 1, i64::MIN, -2, 1], &points, &mut out), Err(Refusal::ZERO_TOP));
    assert_eq!(tarski::write(&degrees, &numbers, &[1, 0], &mut []), Err(Refusal::WRONG_POINT));
    assert_eq!(tarski::write(&degrees, &numbers, &points, &mut out[..41]), Err(Refusal::TOO_SHORT));
    assert_eq!(out, [90; tarski::LONGEST_CARD + 1]);
    assert_eq!(tarski::write(&degrees, &numbers, &points, &mut out), Ok(42));
    assert_eq!((&out[..42], out[42]), (card, 90));
    assert_eq!(tarski::draw(7, 9, 0, 7, &mut out), Err(Refusal::WRONG_COUNT));
    assert_eq!(tarski::draw(7, 8, 64, 7, &mut out), Err(Refusal::WRONG_DEGREE));
    assert_eq!(tarski::draw(7, 8, 64, 6, &mut out[..317]), Err(Refusal::TOO_SHORT));
    assert_eq!(tarski::draw(0, 1, 1, 0, &mut out), Ok(14));
    assert_eq!(out[..14], [1, 1, 1, 0, 0, 8, 0, 13, 0, 0xff, 0xff, 0xff, 0xfb, 0x42]);
    assert_eq!(out[14..42], card[14..]);
    assert_eq!(tarski::draw(u32::MAX, 8, 64, 6, &mut out), Ok(tarski::LONGEST_LINE_CARD));
    assert_eq!((tarski::check(&out[..318]), out[318]), (Ok((8, 64)), 90));
}

fn runs(card: &[u8]) {
    let opened = tarski::open(card).unwrap();
    assert_eq!(Run::start(9).1, Step::Refused(Refusal::WRONG_COUNT));
    let (mut run, mut step) = Run::start(3);
    assert_eq!((step, run.asked()), (Step::Ask(Product(0)), 0));
    assert_eq!(run.row(0), Err(Refusal::LATE));
    while let Step::Ask(product) = step {
        step = run.answer(opened.ask(product).unwrap().number);
    }
    assert_eq!((step, run.asked()), (Step::Done, 11));
    assert_eq!(run.row(1), Ok((Pattern(22), 1)));
    assert_eq!(run.row(3), Err(Refusal::PAST_LAST));
    let (mut patterns, mut counts) = ([Pattern(4711); 4], [4712; 4]);
    assert_eq!(run.rows(&mut patterns[..2], &mut counts), Err(Refusal::TOO_SHORT));
    assert_eq!(run.rows(&mut patterns, &mut counts), Ok(3));
    assert_eq!(patterns, [Pattern(13), Pattern(22), Pattern(26), Pattern(4711)]);
    assert_eq!(counts, [1, 1, 1, 4712]);
    let mut copy = run.clone();
    assert_eq!(copy.answer(0), Step::Refused(Refusal::LATE));
    for (answers, refusal) in [(&[-1][..], Refusal::BAD_FIRST), (&[3, 4][..], Refusal::BAD_LATER), (&[2, 1, 2][..], Refusal::NO_COUNTS)] {
        let (mut run, _) = Run::start(1);
        let last = answers.iter().map(|&answer| run.answer(answer)).last();
        assert_eq!((last, run.asked()), (Some(Step::Refused(refusal)), answers.len()));
        assert_eq!(run.rows(&mut [], &mut []), Err(Refusal::LATE));
    }
}

fn main() {
    let word = std::env::args().nth(1).expect("usage: library CARD CIRCLE | texts");
    if word == "texts" {
        for number in 0..100 {
            println!("{number} {}", Refusal(number).text());
        }
        return;
    }
    let card = std::fs::read(word).unwrap();
    let circle = std::fs::read(std::env::args().nth(2).expect("usage: library CARD CIRCLE | texts")).unwrap();
    assert_eq!((card.len(), circle.len()), (42, 52));
    assert_eq!(tarski::VERSION, (0, 7, 0));
    assert_eq!(Refusal(3).to_string(), "refused by 3: s is not 1 to 8, or n is above 64");
    let limits = [tarski::MOST_POLYNOMIALS, tarski::MOST_POINTS, tarski::MOST_ROWS, tarski::MOST_QUESTIONS, tarski::LONGEST_CARD, tarski::MOST_STACK];
    assert_eq!(limits, [8, 64, 64, 593, 590, 32768]);
    assert_eq!(tarski::LONGEST_LINE_CARD, 318);
    cards(&card);
    plane_cards(&circle);
    repeated(&circle);
    lists(&card);
    solver(&card);
    written(&card);
    runs(&card);
    println!("every call gives what it must");
}
