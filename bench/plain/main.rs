//! Does the operations of `crates/parts_bench` on plain Rust versions of the same arrays, and prints the same
//! checksums. It has the same words: a part and the number of operations. As `serial`, `run`, `check`, `table`, `json` and `why N` it
//! does what the program does with a good text on standard input.

mod draws;
mod kernel;
mod lists;
mod model;
mod pages;
mod queues;
mod reports;
mod runs;
mod text;
mod tokens;

use std::io::Read;

fn main() {
    let words: Vec<String> = std::env::args().skip(1).collect();
    let operations = words.get(1).and_then(|word| word.parse().ok()).unwrap_or(0);
    match words.first().map(String::as_str) {
        Some("lists") => println!("{}", lists::run(operations)),
        Some("pages") => println!("{}", pages::run(operations)),
        Some("tokens") => println!("{}", tokens::run(operations)),
        Some("queues") => println!("{}", queues::run(operations)),
        Some(name @ ("serial" | "run" | "check" | "table" | "json" | "why")) => {
            let mut input = String::new();
            std::io::stdin().read_to_string(&mut input).expect("a text");
            runs::command(name, operations as usize, &input, &mut std::io::stdout());
        }
        _ => println!("no such part"),
    }
}
