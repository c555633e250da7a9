// askcard in plain Rust.
use std::io::{Read, Write};

mod plain;

fn main() {
    let mut card = Vec::new();
    std::io::stdin().lock().take(592).read_to_end(&mut card).unwrap();
    let mut out = std::io::stdout().lock();
    plain::printout(&card, |line| {
        out.write_all(line.as_bytes()).unwrap();
        out.flush().unwrap();
    });
}
