//! How much stack a reading takes, on nests as deep as they are read (128 levels) and one deeper (10). The stack below the call is
//! painted, and measured is how far the paint is gone.

use crate::c::{self, Mode};

/// What stands before and behind the inside of a nest.
const NESTS: [(&str, &str, &str); 16] = [
    ("brackets", "(", ")"),
    ("arrays", "[", "]"),
    ("arrays, in the first member", "[", " a]"),
    ("records", "{k:", "}"),
    ("calls", "f(", ")"),
    ("signs", "-", ""),
    ("operators, on the right", "a+(", ")"),
    ("right sides of lets", "let x=", ""),
    ("bodies", "fn f(){", "}"),
    ("bodies, with docs", "#!d\nfn f(a:Int){", "}"),
    ("default bodies", "match{{", "}}"),
    ("case bodies", "match{a{", "}{}}"),
    ("calls in conditions", "match{f(", "){}{}}"),
    ("casts", "(", "as Int)"),
    ("Options", "a as Option<", ">"),
    ("record types", "a as Record<k:", ">"),
];

/// Those of them that are items: they stand in a body, on the right of a let, or in a call.
const ITEMS: std::ops::RangeInclusive<usize> = 7..=12;

const CALLS: usize = 4;

/// The types nest by themselves, behind one `a as`.
fn text(parts: &[usize]) -> Vec<u8> {
    let mut open = String::new();
    let mut close = String::new();
    let mut in_type = false;
    for &part in parts {
        let (_, before, behind) = NESTS[part];
        let before = if in_type { before.trim_start_matches("a as ") } else { before };
        if in_type && !behind.starts_with('>') {
            break;
        }
        in_type = in_type || before.starts_with("a as ");
        open.push_str(before);
        close.insert_str(0, behind);
    }
    let inside = if in_type { "Int" } else { "a" };
    format!("{open}{inside}{close}").into_bytes()
}

const PAINT: u64 = 0x5a5a_a5a5_5a5a_a5a5;

/// The number that a reading answers, and the bytes of stack that it took.
fn stack_of(mode: Mode, script: &[u8]) -> (u32, usize) {
    let mut arrays = c::CELLS.map(|cells| vec![0; cells * script.len()]);
    let mut tables = c::table_lengths(script.len()).map(|cells| vec![0; cells]);
    let mut numbers = [0u32; 12];
    let here = 0u64;
    let top = (&raw const here) as usize & !15;
    let (low, high) = (top - (256 << 10), top - 1024);
    for at in (low..high).step_by(8) {
        unsafe { std::ptr::write_volatile(at as *mut u64, PAINT) };
    }
    let number = c::parse(mode, script, tables.each_mut().map(Vec::as_mut_slice), arrays.each_mut().map(Vec::as_mut_slice), &mut numbers);
    let gone = (low..high).step_by(8).find(|&at| unsafe { std::ptr::read_volatile(at as *const u64) } != PAINT);
    (number, gone.map_or(1024, |at| top - at))
}

/// The most that the two modes take on a nest as deep as it is read, and one deeper.
fn deepest(parts: &[usize]) -> (usize, usize) {
    let (mut depth, mut refused) = (1, parts.len());
    while 1 < refused - depth {
        let middle = (depth + refused) / 2;
        if stack_of(Mode::Strict, &text(&parts[..middle])).0 == 10 { refused = middle } else { depth = middle }
    }
    let mut most = 0;
    for parts in [&parts[..depth], &parts[..(depth + 1).min(parts.len())]] {
        for mode in [Mode::Strict, Mode::Collecting] {
            most = most.max(stack_of(mode, &text(parts)).1);
        }
    }
    (depth, most)
}

pub fn show() {
    let mixed = 3000;
    println!("| nest | deepest that is read | bytes of stack |\n|---|---|---|");
    std::thread::Builder::new()
        .stack_size(8 << 20)
        .spawn(move || {
            for (part, (name, _, _)) in NESTS.iter().enumerate() {
                let (depth, most) = deepest(&[part; 130]);
                println!("| {name} | {depth} | {most} |");
            }
            let mut seed: u64 = 1;
            let mut most = 0;
            for _ in 0..mixed {
                let (mut parts, mut items) = (Vec::new(), true);
                while parts.len() < 130 {
                    seed = seed.wrapping_mul(6364136223846793005).wrapping_add(1442695040888963407);
                    let part = (seed >> 33) as usize % 14;
                    if items || !ITEMS.contains(&part) {
                        parts.push(part);
                        items = part == CALLS || ITEMS.contains(&part);
                    }
                }
                most = most.max(deepest(&parts).1);
            }
            println!("| {mixed} mixed | | {most} |");
        })
        .unwrap()
        .join()
        .unwrap();
}
