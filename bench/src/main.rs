//! Times the strong test; README.md says how to run it.

mod check;
mod format;

use check::{first_clash, Clash};
use format::Case;
use std::hint::black_box;
use std::io::BufRead;
use std::time::Instant;

/// What bytes give that are no case.
const NO_CASE: u64 = 1 << 41;

/// Tests the case so many times, and gives the sum of the verdicts, or `NO_CASE`. A verdict is 0 where the table passes, and 2^40 plus
/// the five numbers of a clash in a byte each.
fn sum(bytes: &[u8], runs: u32) -> u64 {
    let Some(case) = format::read(bytes) else { return NO_CASE };
    let verdict = |case: &Case| match first_clash(case) {
        None => 0,
        Some(Clash { a, b, k, i, j }) => [1, a, b, k, i, j].iter().fold(0, |sum, &byte| sum << 8 | byte as u64),
    };
    (0..runs).fold(0u64, |sum, _| sum.wrapping_add(verdict(black_box(&case))))
}

mod rattle {
    #[link(name = "bench_check", kind = "static")]
    #[link(name = "libc_c", kind = "static")]
    extern "C" {
        fn check_case(bytes: *const u8, length: usize, runs: u32) -> u64;
    }

    /// What the Rattle library gives in place of `sum`.
    pub fn sum(bytes: &[u8], runs: u32) -> u64 {
        // Sound: the pointer and the length are those of a slice, which the call only reads.
        unsafe { check_case(bytes.as_ptr(), bytes.len(), runs) }
    }
}

const FULL: u64 = u64::MAX;

const ROUNDS: u32 = 15;

/// One nonterminal with 126 productions of these tests and sight sets, each of them predicted at all 63 kinds, under a domain of 64
/// classes.
fn wide(domain: &str, productions: impl Iterator<Item = (u8, u64)>) -> String {
    let mut line = format!("{domain} 1 63 126");
    let itself = "2 0 0 0 0";
    for (p, (test, sight)) in (0..126).zip(productions) {
        // The last production is empty, so that all 63 kinds begin the nonterminal and follow it.
        let items = match p {
            0..=62 => format!("8{}", format!(" {itself} 1 {p}").repeat(4)),
            125 => "0".to_string(),
            _ => format!("8{}", format!(" {itself}").repeat(8)),
        };
        line += &format!(" 0 {test} {sight} 0 0 0 {items}");
    }
    line
}

/// The worst table: only tests keep the productions apart, each says yes somewhere, and no two of them together.
fn worst() -> String {
    wide("3", (1..).map(|test| (test, FULL)))
}

/// The widest table under Posts, which has two such tests. The others are tests that it does not name, which never say yes.
fn posts() -> String {
    wide("2 6", [1, 2].into_iter().chain(4..).map(|test| (test, FULL)))
}

/// Two halves with the same tests: the productions of a half are kept apart by their tests, and the halves by their sight sets.
fn halves() -> String {
    const HALF: u64 = (1 << 31) - 1;
    wide("3", [HALF, HALF << 31].into_iter().flat_map(|sight| (1..=63).map(move |test| (test, sight))))
}

/// Nonterminals in a chain, each of which begins with the next and ends with it. The productions stand in the order of the chain, or
/// against it.
fn chain(against: bool) -> String {
    const LAST: usize = 62;
    let mut productions = Vec::new();
    for n in 0..LAST {
        let next = format!("2 {} 0 0 0", n + 1);
        productions.push(format!(" {n} 0 {FULL} 0 0 0 3 {next} 1 0 {next}"));
        productions.push(format!(" {n} 0 {FULL} 0 0 0 1 1 {}", n + 1));
    }
    productions.push(format!(" {LAST} 1 {FULL} 0 0 0 1 1 0"));
    productions.push(format!(" {LAST} 2 {FULL} 0 0 0 2 1 0 1 0"));
    if against {
        productions.reverse();
    }
    format!("1 1440 1 90 {} 63 {}{}", LAST + 1, productions.len(), productions.concat())
}

/// A table of ordinary size: order sheets of a depot, under Minutes with the cut 90.
fn ordinary() -> String {
    // Each production as left side, test, sight set and items: k for a kind, n for a nonterminal, c for a check.
    const NO_ELSE: u64 = FULL - (1 << 3);
    let productions = [
        (0, 0, FULL, "n1 n0"),         // sheet → order sheet
        (0, 0, FULL, ""),              // sheet → nothing
        (1, 0, FULL, "k1 n3 n1 n2"),   // order → WHEN condition order otherwise
        (1, 0, FULL, "k2"),            // order → PARK
        (1, 0, FULL, "k4 n4 n6"),      // order → CHARGE posts time
        (1, 0, FULL, "k5 k0 c1"),      // order → MOVE number, within bounds
        (1, 0, FULL, "k6 k0 n0 k7"),   // order → REPEAT number sheet END
        (1, 0, FULL, "k8 n7"),         // order → SEND list
        (2, 0, FULL, "k3 n1"),         // otherwise → ELSE order
        (2, 0, NO_ELSE, ""),           // otherwise → nothing, not in sight of ELSE
        (3, 0, FULL, "k9 n4"),         // condition → FREE posts
        (3, 0, FULL, "k10 n6"),        // condition → AFTER time
        (3, 0, FULL, "k11 n3"),        // condition → NOT condition
        (3, 0, FULL, "k12 n3 k13 n3"), // condition → BOTH condition AND condition
        (4, 0, FULL, "k14 n5"),        // posts → post more
        (5, 0, FULL, "k15 k14 c3 n5"), // more → WITH post more, none twice
        (5, 0, FULL, ""),              // more → nothing
        (6, 1, FULL, "k0"),            // time → number
        (6, 2, FULL, "k0 k0"),         // time → number number
        (7, 0, FULL, "k16 k0 n8"),     // list → LINE number rest
        (7, 0, FULL, "k17 k0 n8"),     // list → TRAM number rest
        (8, 0, FULL, "k18 n7"),        // rest → THEN list
        (8, 0, FULL, "c0"),            // rest → a check
    ];
    let mut line = format!("1 1440 1 90 9 19 {}", productions.len());
    for (left, test, sight, items) in productions {
        let items: Vec<&str> = items.split_whitespace().collect();
        line += &format!(" {left} {test} {sight} 0 0 0 {}", items.len());
        for item in items {
            let (kind, number) = item.split_at(1);
            line += &match kind {
                "k" => format!(" 1 {number}"),
                "n" => format!(" 2 {number} 0 0 0"),
                _ => format!(" 3 {number} 0 0"),
            };
        }
    }
    line
}

/// The nanoseconds of one test, the best mean of so many rounds. Reading the bytes is not counted.
fn nanoseconds(runs: u32, bytes: &[u8], sum: fn(&[u8], u32) -> u64) -> f64 {
    let time = |runs: u32| {
        let start = Instant::now();
        black_box(sum(black_box(bytes), runs));
        start.elapsed().as_nanos() as f64
    };
    let best = |runs: u32| (0..ROUNDS).map(|_| time(runs)).fold(f64::INFINITY, f64::min);
    (best(runs) - best(0)) / runs as f64
}

/// The nanoseconds of one test in Rattle and in Rust.
fn both(runs: u32, line: &str) -> (f64, f64) {
    let bytes = format::from_decimal(line).expect("a case");
    (nanoseconds(runs, &bytes, rattle::sum), nanoseconds(runs, &bytes, sum))
}

fn print(name: &str, (ours, rust): (f64, f64)) {
    println!("{name}: Rattle {ours:.0} ns, Rust {rust:.0} ns, {:.2} of Rust", ours / rust);
}

/// Prints the times of the tables above, and the mean of those of standard input, given in decimal numbers.
fn times() {
    for (name, line, runs) in [
        ("worst", worst(), 200),
        ("posts", posts(), 2_000),
        ("halves", halves(), 200),
        ("deep", chain(false), 2_000),
        ("against", chain(true), 2_000),
        ("ordinary", ordinary(), 20_000),
    ] {
        let bytes = format::from_decimal(&line).expect("a case");
        assert_eq!((sum(&bytes, 1), rattle::sum(&bytes, 1)), (0, 0), "the {name} table passes");
        print(name, both(runs, &line));
    }
    let lines = std::io::stdin().lock().lines().map(|line| line.expect("text"));
    let all: Vec<(f64, f64)> = lines.map(|line| both(2_000, &line)).collect();
    let mean = |of: fn(&(f64, f64)) -> f64| all.iter().map(of).sum::<f64>() / all.len() as f64;
    print("many", (mean(|both| both.0), mean(|both| both.1)));
    let slower: Vec<f64> = all.iter().map(|(ours, rust)| ours - rust).filter(|&more| more > 0.0).collect();
    let most = slower.iter().copied().fold(0.0, f64::max);
    println!("of many: {} of {} slower in Rattle, by {most:.0} ns at most", slower.len(), all.len());
}

/// Prints the verdict on every case of standard input, given in decimal numbers, on which both have to agree.
fn verdicts() {
    for line in std::io::stdin().lock().lines() {
        let bytes = format::from_decimal(&line.expect("text")).expect("a case");
        let verdict = sum(&bytes, 1);
        assert_eq!(verdict, rattle::sum(&bytes, 1));
        match verdict.to_be_bytes() {
            [_, _, 0, _, _, _, _, _] => println!("passes"),
            [_, _, 1, a, b, k, i, j] => println!("clash {a} {b} {k} {i} {j}"),
            _ => println!("no case"),
        }
    }
}

fn main() {
    let arguments: Vec<String> = std::env::args().skip(1).collect();
    match arguments.iter().map(String::as_str).collect::<Vec<_>>()[..] {
        ["verdicts"] => verdicts(),
        ["times"] => times(),
        _ => {
            eprintln!("usage: bench verdicts | times");
            std::process::exit(2);
        }
    }
}
