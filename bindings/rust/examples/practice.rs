//! practice SEED LINES: print the practice sheet of a seed.
//!
//!     cargo run --offline --example practice SEED LINES
use purple_garden_reader::practice;

fn number(name: &str, word: &str) -> Result<u32, String> {
    let wrong = |_| format!("{name} is a whole number from 0 to {}, not {word}", u32::MAX);
    word.parse().map_err(wrong)
}

fn sheet(words: &[String]) -> Result<String, String> {
    let [seed, lines] = words else { return Err("usage: practice SEED LINES".to_string()) };
    let (seed, lines) = (number("SEED", seed)?, number("LINES", lines)?);
    practice::sheet(seed, lines).map_err(|e| e.to_string())
}

fn main() {
    let words: Vec<String> = std::env::args().skip(1).collect();
    match sheet(&words) {
        Ok(text) => print!("{text}"),
        Err(why) => {
            eprintln!("{why}");
            std::process::exit(1);
        }
    }
}
