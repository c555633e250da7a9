// The same steps in plain, safe Rust, with nothing proved: what the proved calls are measured against.

pub const MOST_POINTS: usize = 64;

// ---- cards

fn offset(card: &[u8], j: usize) -> usize {
    let at = 4 + 2 * j;
    card[at] as usize * 256 + card[at + 1] as usize
}

fn coefficient(card: &[u8], at: usize) -> i64 {
    i32::from_be_bytes([card[at], card[at + 1], card[at + 2], card[at + 3]]) as i64
}

fn too_large(c: i64) -> bool {
    !(-1_000_000..=1_000_000).contains(&c)
}

/// Where the body of a polynomial in X that begins at a place ends.
fn line_body(card: &[u8], at: usize) -> Result<usize, u16> {
    let d = card[at] as usize;
    if d > 6 {
        return Err(16);
    }
    let end = at + 1 + 4 * (d + 1);
    if card.len() < end {
        return Err(1);
    }
    let mut top = 0;
    for c in card[at + 1..end].chunks_exact(4) {
        top = coefficient(c, 0);
        if too_large(top) {
            return Err(5);
        }
    }
    if d > 0 && top == 0 {
        return Err(17);
    }
    Ok(end)
}

/// The same of a polynomial in X and Y.
fn plane_body(card: &[u8], at: usize) -> Result<usize, u16> {
    let t = card[at] as usize;
    if t > 9 {
        return Err(18);
    }
    let end = at + 1 + 6 * t;
    if card.len() < end {
        return Err(1);
    }
    let terms = || card[at + 1..end].chunks_exact(6);
    let mut least = 0;
    for term in terms() {
        let (a, b) = (term[0] as usize, term[1] as usize);
        let place = 256 * a + b;
        if a + b > 6 || place < least || coefficient(term, 2) == 0 {
            return Err(18);
        }
        least = place + 1;
    }
    if terms().any(|term| too_large(coefficient(term, 2))) {
        return Err(5);
    }
    Ok(end)
}

/// The number of polynomials and of points, or the number that refuses the card.
pub fn check(card: &[u8]) -> Result<(usize, usize), u16> {
    if card.len() < 4 {
        return Err(1);
    }
    if !(1..=2).contains(&card[0]) || card[3] != 0 {
        return Err(2);
    }
    let (s, n) = (card[1] as usize, card[2] as usize);
    if !(1..=8).contains(&s) || n > MOST_POINTS {
        return Err(3);
    }
    let mut at = 4 + 2 * (s + 1);
    if card.len() < at {
        return Err(1);
    }
    if offset(card, 0) != at {
        return Err(4);
    }
    for j in 0..s {
        if card.len() <= at {
            return Err(1);
        }
        let end = if card[0] == 1 { line_body(card, at)? } else { plane_body(card, at)? };
        if offset(card, j + 1) != end {
            return Err(4);
        }
        at = end;
    }
    let points = &card[at..];
    if points.len() != card[0] as usize * n {
        return Err(1);
    }
    let sound = if card[0] == 1 { line_points(points) } else { plane_points(points) };
    if sound { Ok((s, n)) } else { Err(6) }
}

fn line_points(points: &[u8]) -> bool {
    let mut last = -100;
    for &x in points {
        let x = x as i8;
        if x < last || x > 100 {
            return false;
        }
        last = x;
    }
    true
}

fn plane_points(points: &[u8]) -> bool {
    let mut last = (-100, -100);
    for p in points.chunks_exact(2) {
        let p = (p[0] as i8, p[1] as i8);
        if p < last || p.0 > 100 || !(-100..=100).contains(&p.1) {
            return false;
        }
        last = p;
    }
    true
}

// ---- queries

/// An opened card: how many different points it has; for each polynomial those where it is positive, and those where it is negative, a bit each.
pub struct Opened {
    pub s: usize,
    pub n: usize,
    pub positive: [u64; 8],
    pub negative: [u64; 8],
}

/// The points of a sound card, of SIZE bytes each, to the front of out, each once; and where they end. They never fall, so equal ones stand together.
fn different<const SIZE: usize>(points: &[u8], out: &mut [u8; 2 * MOST_POINTS]) -> usize {
    let (mut end, mut last) = (0, &[][..]);
    for p in points.chunks_exact(SIZE) {
        if p != last {
            out[end..end + SIZE].copy_from_slice(p);
            end += SIZE;
            last = p;
        }
    }
    end
}

pub fn open(card: &[u8]) -> Result<Opened, u16> {
    let (s, _) = check(card)?;
    let size = card[0] as usize;
    let mut kept = [0; 2 * MOST_POINTS];
    let points = &card[offset(card, s)..];
    let end = if size == 1 { different::<1>(points, &mut kept) } else { different::<2>(points, &mut kept) };
    let points = &kept[..end];
    let mut opened = Opened { s, n: end / size, positive: [0; 8], negative: [0; 8] };
    for j in 0..s {
        let body = &card[offset(card, j)..offset(card, j + 1)];
        let (positive, negative) = (&mut opened.positive[j], &mut opened.negative[j]);
        let mut mark = |k: usize, v: i64| {
            *positive |= ((v > 0) as u64) << k;
            *negative |= ((v < 0) as u64) << k;
        };
        if card[0] == 2 {
            for (k, p) in points.chunks_exact(2).enumerate() {
                mark(k, plane_value(body, p[0] as i8 as i64, p[1] as i8 as i64));
            }
            continue;
        }
        let d = body[0] as usize;
        let mut c = [0i64; 7];
        for k in 0..=d {
            c[k] = coefficient(body, 1 + 4 * k);
        }
        for (k, &x) in points.iter().enumerate() {
            let x = x as i8 as i64;
            let mut v = 0;
            for &y in c[..=d].iter().rev() {
                v = v * x + y;
            }
            mark(k, v);
        }
    }
    Ok(opened)
}

fn powers(x: i64) -> [i64; 7] {
    let mut p = [1; 7];
    for i in 1..7 {
        p[i] = x * p[i - 1];
    }
    p
}

fn plane_value(body: &[u8], x: i64, y: i64) -> i64 {
    let (xs, ys) = (powers(x), powers(y));
    body[1..].chunks_exact(6).map(|term| coefficient(term, 2) * xs[term[0] as usize] * ys[term[1] as usize]).sum()
}

const POWERS: [u16; 9] = [1, 3, 9, 27, 81, 243, 729, 2187, 6561];

fn digits(number: u16, s: usize) -> (u32, u32) {
    let (mut ones, mut twos, mut rest) = (0, 0, number);
    for j in (0..s).rev() {
        let w = POWERS[j];
        if rest >= 2 * w {
            rest -= 2 * w;
            twos |= 1 << j;
        } else if rest >= w {
            rest -= w;
            ones |= 1 << j;
        }
    }
    (ones, twos)
}

fn sign(a: (u32, u32), p: (u32, u32)) -> i64 {
    let support = a.0 | a.1;
    if support & (p.0 | p.1) != support {
        return 0;
    }
    1 - 2 * ((a.0 & p.1).count_ones() as i64 & 1)
}

pub struct Counts {
    pub number: i64,
    pub positive: u16,
    pub negative: u16,
    pub zero: u16,
}

pub fn ask(card: &Opened, product: u16) -> Result<Counts, u16> {
    if product >= POWERS[card.s] {
        return Err(13);
    }
    let (ones, twos) = digits(product, card.s);
    let mut left = if card.n == 64 { u64::MAX } else { (1 << card.n) - 1 };
    let mut odd = 0;
    for j in 0..card.s {
        if (ones | twos) >> j & 1 == 1 {
            left &= card.positive[j] | card.negative[j];
        }
        if ones >> j & 1 == 1 {
            odd ^= card.negative[j];
        }
    }
    let (some, negative) = (left.count_ones() as u16, (left & odd).count_ones() as u16);
    let positive = some - negative;
    Ok(Counts { number: positive as i64 - negative as i64, positive, negative, zero: card.n as u16 - some })
}

/// The numbers of a list of products to the front of out; or the refusal, for a bad product with its position.
pub fn ask_all(card: &Opened, products: &[u16], out: &mut [i64]) -> Result<(), (u16, usize)> {
    if out.len() < products.len() {
        return Err((15, 0));
    }
    if let Some(position) = products.iter().position(|&a| a >= POWERS[card.s]) {
        return Err((13, position));
    }
    for (&a, number) in products.iter().zip(out) {
        *number = ask(card, a).map_err(|refusal| (refusal, 0))?.number;
    }
    Ok(())
}

// ---- adapted lists

/// The last polynomial, of weight w, taken off: the patterns left, the signs that each stood with, and where each pattern's went.
struct Split {
    n: usize,
    low: [u16; 64],
    mark: [u8; 64],
    at: [u8; 64],
}

fn split(list: &[u16], w: u16) -> Split {
    let mid = list.iter().take_while(|&&p| p < w).count();
    let top = list.iter().take_while(|&&p| p < 2 * w).count();
    let (mut a, mut b, mut c) = (0, mid, top);
    let mut out = Split { n: 0, low: [0; 64], mark: [0; 64], at: [0; 64] };
    loop {
        let x = if a < mid { list[a] } else { w };
        let y = if b < top { list[b] - w } else { w };
        let z = if c < list.len() { list[c] - 2 * w } else { w };
        let q = x.min(y).min(z);
        if q == w {
            return out;
        }
        let n = out.n;
        let mut mark = 0;
        if x == q {
            mark |= 1;
            out.at[a] = n as u8;
            a += 1;
        }
        if y == q {
            mark |= 2;
            out.at[b] = n as u8;
            b += 1;
        }
        if z == q {
            mark |= 4;
            out.at[c] = n as u8;
            c += 1;
        }
        out.low[n] = q;
        out.mark[n] = mark;
        out.n += 1;
    }
}

fn having(low: &[u16], mark: &[u8], k: u32, out: &mut [u16; 64]) -> usize {
    let mut n = 0;
    for (&q, &m) in low.iter().zip(mark) {
        if m.count_ones() >= k {
            out[n] = q;
            n += 1;
        }
    }
    n
}

pub fn adapted(list: &[u16], i: usize, b: u16, out: &mut [u16]) {
    match list.len() {
        0 => {}
        1 => out[0] = b,
        _ => {
            let w = POWERS[i - 1];
            let t = split(list, w);
            let (low, mark) = (&t.low[..t.n], &t.mark[..t.n]);
            adapted(low, i - 1, b, out);
            let mut at = t.n;
            for k in 2..4 {
                let mut l = [0; 64];
                let n = having(low, mark, k, &mut l);
                adapted(&l[..n], i - 1, b + (k as u16 - 1) * w, &mut out[at..]);
                at += n;
            }
        }
    }
}

// ---- the solver

fn solve_list(list: &[u16], i: usize, x: &[i64], out: &mut [i64]) -> bool {
    if x.iter().any(|y| !(-64..=64).contains(y)) {
        return false;
    }
    match list.len() {
        0 => return true,
        1 => {
            out[0] = x[0];
            return true;
        }
        _ => {}
    }
    let i = i - 1;
    let w = POWERS[i];
    let t = split(list, w);
    let n = t.n;
    let (low, mark) = (&t.low[..n], &t.mark[..n]);
    let (mut l2, mut l3) = ([0; 64], [0; 64]);
    let n2 = having(low, mark, 2, &mut l2);
    let n3 = having(low, mark, 3, &mut l3);
    let (mut d, mut e, mut g) = ([0i64; 64], [0i64; 64], [0i64; 64]);
    if !solve_list(low, i, &x[..n], &mut d[..n]) {
        return false;
    }
    for j in 0..n {
        e[j] = match mark[j] {
            2 => d[j],
            4 => -d[j],
            _ => 0,
        };
    }
    if !moment(&l2[..n2], low, mark, 2, i, &x[n..n + n2], &mut e[..n]) {
        return false;
    }
    for j in 0..n {
        g[j] = match mark[j] {
            2 | 4 | 6 => d[j],
            3 => e[j],
            5 => -e[j],
            _ => 0,
        };
    }
    if !moment(&l3[..n3], low, mark, 3, i, &x[n + n2..], &mut g[..n]) {
        return false;
    }
    let mut left = 64;
    for (k, &p) in list.iter().enumerate() {
        let j = t.at[k] as usize;
        let u = if p < w {
            d[j] - g[j]
        } else {
            let twice = if p < 2 * w { g[j] + e[j] } else { g[j] - e[j] };
            if twice & 1 != 0 {
                return false;
            }
            twice / 2
        };
        left -= u.abs();
        if left < 0 {
            return false;
        }
        out[k] = u;
    }
    true
}

/// The numbers v of the patterns in `list`, those whose marks have at least k signs, where v holds the others.
fn moment(list: &[u16], low: &[u16], mark: &[u8], k: u32, i: usize, x: &[i64], v: &mut [i64]) -> bool {
    let m = list.len();
    if m == 0 {
        return true;
    }
    let (mut ones, mut twos, mut u) = ([0; 64], [0; 64], [0; 64]);
    let mut known = 0;
    for (j, &y) in v.iter().enumerate() {
        if y != 0 {
            (ones[known], twos[known]) = digits(low[j], i);
            u[known] = y;
            known += 1;
        }
    }
    let (mut r, mut f) = ([0i64; 64], [0i64; 64]);
    r[..m].copy_from_slice(x);
    if known > 0 {
        let mut products = [0; 64];
        adapted(list, i, 0, &mut products);
        for j in 0..m {
            let a = digits(products[j], i);
            for c in 0..known {
                r[j] -= sign(a, (ones[c], twos[c])) * u[c];
            }
        }
    }
    if !solve_list(list, i, &r[..m], &mut f[..m]) {
        return false;
    }
    let mut c = 0;
    for j in 0..v.len() {
        if mark[j].count_ones() >= k {
            v[j] = f[c];
            c += 1;
        }
    }
    true
}

pub fn solve(s: usize, patterns: &[u16], numbers: &[i64], out: &mut [i64]) -> Result<(), u16> {
    if !(1..=8).contains(&s) {
        return Err(3);
    }
    let r = patterns.len();
    if r > 64 || numbers.len() != r || patterns.iter().any(|&p| p >= POWERS[s]) || patterns.windows(2).any(|w| w[0] >= w[1]) {
        return Err(11);
    }
    if out.len() < r {
        return Err(15);
    }
    let mut found = [0; 64];
    if !solve_list(patterns, s, numbers, &mut found[..r]) {
        return Err(12);
    }
    out[..r].copy_from_slice(&found[..r]);
    Ok(())
}

// ---- the run

#[derive(Clone, Copy, PartialEq)]
enum Phase {
    Running,
    Done,
    Closed,
}

pub enum Step {
    Ask(u16),
    Done,
    Refused(u16),
}

pub struct Run {
    s: usize,
    pub asked: usize,
    phase: Phase,
    round: usize,
    points: i64,
    pub rows: usize,
    pub patterns: [u16; 64],
    pub counts: [u16; 64],
    products: [u16; 64],
    answered: usize,
    answers: [i64; 128],
}

impl Run {
    pub fn start(s: usize) -> Run {
        let phase = if (1..=8).contains(&s) { Phase::Running } else { Phase::Closed };
        Run {
            s,
            asked: 0,
            phase,
            round: 0,
            points: 0,
            rows: 0,
            patterns: [0; 64],
            counts: [0; 64],
            products: [0; 64],
            answered: 0,
            answers: [0; 128],
        }
    }

    fn close(&mut self, k: u16) -> Step {
        self.phase = Phase::Closed;
        self.rows = 0;
        Step::Refused(k)
    }

    fn next(&self) -> Step {
        let w = POWERS[self.round - 1];
        let k = self.answered;
        Step::Ask(if k < self.rows { self.products[k] + w } else { self.products[k - self.rows] + 2 * w })
    }

    fn begin(&mut self) -> Step {
        if self.round == self.s {
            self.phase = Phase::Done;
            return Step::Done;
        }
        adapted(&self.patterns[..self.rows], self.round, 0, &mut self.products);
        self.round += 1;
        self.answered = 0;
        self.next()
    }

    pub fn answer(&mut self, a: i64) -> Step {
        if self.phase != Phase::Running {
            return Step::Refused(7);
        }
        self.asked += 1;
        if self.round == 0 {
            if !(0..=64).contains(&a) {
                return self.close(8);
            }
            self.points = a;
            if a == 0 {
                self.phase = Phase::Done;
                return Step::Done;
            }
            self.rows = 1;
            self.patterns[0] = 0;
            self.counts[0] = a as u16;
            return self.begin();
        }
        if !(-self.points..=self.points).contains(&a) {
            return self.close(9);
        }
        self.answers[self.answered] = a;
        self.answered += 1;
        if self.answered < 2 * self.rows {
            return self.next();
        }
        self.end_round()
    }

    fn end_round(&mut self) -> Step {
        let r = self.rows;
        let i = self.round - 1;
        let (mut e, mut g) = ([0; 64], [0; 64]);
        let s = i.max(1);
        if solve(s, &self.patterns[..r], &self.answers[..r], &mut e).is_err() || solve(s, &self.patterns[..r], &self.answers[r..2 * r], &mut g).is_err() {
            return self.close(10);
        }
        for j in 0..r {
            let d = self.counts[j] as i64;
            if g[j] > d || e[j].abs() > g[j] || (g[j] + e[j]) & 1 != 0 {
                return self.close(10);
            }
        }
        let (old, counts) = (self.patterns, self.counts);
        let w = POWERS[i];
        let mut n = 0;
        for t in 0..3u16 {
            for j in 0..r {
                let count = match t {
                    0 => counts[j] as i64 - g[j],
                    1 => (g[j] + e[j]) / 2,
                    _ => (g[j] - e[j]) / 2,
                };
                if count > 0 {
                    self.patterns[n] = old[j] + t * w;
                    self.counts[n] = count as u16;
                    n += 1;
                }
            }
        }
        self.rows = n;
        self.begin()
    }
}

// ---- one card through

pub fn printout(card: &[u8], mut line: impl FnMut(&str)) {
    let opened = match open(card) {
        Ok(opened) => opened,
        Err(k) => return line(&format!("R {k}\n")),
    };
    let mut run = Run::start(opened.s);
    let mut product = 0;
    loop {
        let answer = ask(&opened, product).unwrap().number;
        line(&format!("Q {product} {answer}\n"));
        match run.answer(answer) {
            Step::Ask(next) => product = next,
            Step::Done => break,
            Step::Refused(k) => return line(&format!("R {k}\n")),
        }
    }
    for k in 0..run.rows {
        line(&format!("S {} {}\n", run.patterns[k], run.counts[k]));
    }
    line(&format!("E {}\n", run.asked));
}
