//! The strong test, as a Rust programmer would write it for speed: sets are words of 64 bits, their rules are closed over
//! once with reachability, and each test is asked once for each pair of classes and kept as 64 rows of bits.

use crate::format::{Case, Domain, Item};

pub const END: usize = 63;

/// The first clash: two productions, a kind, the class of the inherited value and the class of the word.
#[derive(Clone, Copy, Debug, PartialEq)]
pub struct Clash {
    pub a: usize,
    pub b: usize,
    pub k: usize,
    pub i: usize,
    pub j: usize,
}

trait Tests {
    fn classes(&self) -> usize;
    fn test(&self, number: u8, i: usize, j: usize) -> bool;
}

struct Minutes(usize);

impl Tests for Minutes {
    fn classes(&self) -> usize {
        self.0
    }

    fn test(&self, number: u8, i: usize, j: usize) -> bool {
        match number {
            0 => true,
            1 => i == j,
            2 => i != j,
            3 => i < j,
            4 => i >= j,
            _ => false,
        }
    }
}

struct Posts(usize);

impl Tests for Posts {
    fn classes(&self) -> usize {
        self.0
    }

    fn test(&self, number: u8, i: usize, j: usize) -> bool {
        match number {
            0 => true,
            1 => i & j == 0,
            2 => i & j != 0,
            3 => i == j,
            _ => false,
        }
    }
}

/// Test n says yes where two classes add up to n - 1: each test from 1 to 127 says yes somewhere, and no two of them together.
struct Sums;

impl Tests for Sums {
    fn classes(&self) -> usize {
        64
    }

    fn test(&self, number: u8, i: usize, j: usize) -> bool {
        number == 0 || i + j + 1 == number as usize
    }
}

/// The first clash of a table, or none: the table passes. All domains have at most 64 classes.
pub fn first_clash(case: &Case) -> Option<Clash> {
    let looks = looks(case);
    match case.domain {
        Domain::Minutes(classes) => search(case, &looks, &Minutes(classes)),
        Domain::Posts(classes) => search(case, &looks, &Posts(classes)),
        Domain::Sums => search(case, &looks, &Sums),
    }
}

/// The kinds at which each production may be predicted: its Predict set and its sight set together.
fn looks(case: &Case) -> Vec<u64> {
    let empty = empty(case);
    let n = case.nonterminals;

    // First: the kinds that begin a nonterminal at once, and the nonterminals that do.
    let mut first = [0u64; 64];
    let mut leads = [0u64; 64];
    for p in &case.productions {
        let (kinds, nonterminals, _) = beginning(p.items(), empty);
        first[p.left as usize] |= kinds;
        leads[p.left as usize] |= nonterminals;
    }
    close(&mut first, &mut leads, n);

    // Follow: the kinds that come after a nonterminal inside a production, and the left sides at whose end it stands.
    let mut follow = [0u64; 64];
    let mut ends = [0u64; 64];
    follow[0] = 1 << END;
    for p in &case.productions {
        // What begins the items after the present one, from the last to the first.
        let mut after = 0;
        let mut all_empty = true;
        for item in p.items().iter().rev() {
            match *item {
                Item::Kind(kind) => {
                    after = 1 << kind;
                    all_empty = false;
                }
                Item::Nonterminal(b) => {
                    let b = b as usize;
                    follow[b] |= after;
                    ends[b] |= (all_empty as u64) << p.left;
                    if empty >> b & 1 == 1 {
                        after |= first[b];
                    } else {
                        after = first[b];
                        all_empty = false;
                    }
                }
                Item::Check => {}
            }
        }
    }
    close(&mut follow, &mut ends, n);

    let look = |p: &crate::format::Production| {
        let (mut kinds, mut nonterminals, all_empty) = beginning(p.items(), empty);
        while nonterminals != 0 {
            kinds |= first[nonterminals.trailing_zeros() as usize];
            nonterminals &= nonterminals - 1;
        }
        if all_empty {
            kinds |= follow[p.left as usize];
        }
        kinds & p.sight
    };
    case.productions.iter().map(look).collect()
}

/// The nonterminals that can be empty.
fn empty(case: &Case) -> u64 {
    let mut empty = 0u64;
    loop {
        let before = empty;
        for p in &case.productions {
            if empty >> p.left & 1 == 0 && beginning(p.items(), empty).2 {
                empty |= 1 << p.left;
            }
        }
        if empty == before {
            return empty;
        }
    }
}

/// The kinds and the nonterminals that stand after nothing but what can be empty, and whether all can.
fn beginning(items: &[Item], empty: u64) -> (u64, u64, bool) {
    let mut nonterminals = 0;
    for item in items {
        match *item {
            Item::Kind(kind) => return (1 << kind, nonterminals, false),
            Item::Nonterminal(b) => {
                nonterminals |= 1 << b;
                if empty >> b & 1 == 0 {
                    return (0, nonterminals, false);
                }
            }
            Item::Check => {}
        }
    }
    (0, nonterminals, true)
}

/// Joins to each set the sets of all that it reaches.
fn close(sets: &mut [u64; 64], reach: &mut [u64; 64], n: usize) {
    for through in 0..n {
        for from in 0..n {
            if reach[from] >> through & 1 == 1 {
                reach[from] |= reach[through];
            }
        }
    }
    let own = *sets;
    for from in 0..n {
        let mut reached = reach[from];
        while reached != 0 {
            sets[from] |= own[reached.trailing_zeros() as usize];
            reached &= reached - 1;
        }
    }
}

/// What a test says at all classes: bit j of row i, and bit i of `end` for the end mark, whose class is 0.
struct Matrix {
    rows: [u64; 64],
    end: u64,
    never: bool,
}

impl Matrix {
    fn of(tests: &impl Tests, number: u8) -> Matrix {
        let classes = tests.classes();
        let (mut rows, mut end, mut some) = ([0u64; 64], 0, 0);
        for (i, row) in rows[..classes].iter_mut().enumerate() {
            *row = (0..classes).fold(0, |row, j| row | (tests.test(number, i, j) as u64) << j);
            end |= (*row & 1) << i;
            some |= *row;
        }
        Matrix { rows, end, never: some == 0 }
    }
}

fn search(case: &Case, looks: &[u64], tests: &impl Tests) -> Option<Clash> {
    let ps = &case.productions;
    let mut matrices: Vec<Matrix> = Vec::new();
    let mut known = [None; 256];
    let mut matrix = |matrices: &mut Vec<Matrix>, number: u8| {
        *known[number as usize].get_or_insert_with(|| {
            matrices.push(Matrix::of(tests, number));
            matrices.len() - 1
        })
    };
    for a in 0..ps.len() {
        for b in a + 1..ps.len() {
            let common = looks[a] & looks[b];
            if ps[a].left != ps[b].left || common == 0 {
                continue;
            }
            let at_a = matrix(&mut matrices, ps[a].test);
            if matrices[at_a].never {
                break;
            }
            let at_b = matrix(&mut matrices, ps[b].test);
            let (one, two) = (&matrices[at_a], &matrices[at_b]);
            if two.never {
                continue;
            }
            let k = common.trailing_zeros() as usize;
            if k == END {
                let both = one.end & two.end;
                if both != 0 {
                    return Some(Clash { a, b, k, i: both.trailing_zeros() as usize, j: 0 });
                }
                continue;
            }
            for (i, (x, y)) in one.rows.iter().zip(&two.rows).enumerate() {
                if x & y != 0 {
                    return Some(Clash { a, b, k, i, j: (x & y).trailing_zeros() as usize });
                }
            }
        }
    }
    None
}
