//! Random numbers that a seed fixes, and random small tables.

use crate::domain::Domain;
use crate::sets::{strong_test, Sets, Verdict};
use crate::table::{Case, Item, Production, Rule, END};

/// A generator in the manner of splitmix64.
pub struct Random(pub u64);

impl Random {
    pub fn next(&mut self) -> u64 {
        self.0 = self.0.wrapping_add(0x9e3779b97f4a7c15);
        let mut mixed = self.0;
        mixed = (mixed ^ mixed >> 30).wrapping_mul(0xbf58476d1ce4e5b9);
        mixed = (mixed ^ mixed >> 27).wrapping_mul(0x94d049bb133111eb);
        mixed ^ mixed >> 31
    }

    /// A number below the bound.
    pub fn below(&mut self, bound: usize) -> usize {
        (self.next() % bound as u64) as usize
    }

    /// Yes in so many of a hundred cases.
    pub fn percent(&mut self, share: usize) -> bool {
        self.below(100) < share
    }

    pub fn one<T: Clone>(&mut self, of: &[T]) -> T {
        of[self.below(of.len())].clone()
    }
}

/// A random table that may clash.
pub fn any_case(random: &mut Random) -> Case {
    let domain = domain(random);
    let nonterminals = 1 + random.below(4);
    // Few kinds are in use, so that words meet; now and then they lie at the end of the range.
    let (kinds, used) = if random.percent(10) { (63, vec![0, 1, 31, 32, 61, 62]) } else { few_kinds(random) };
    let mut productions = Vec::new();
    for left in 0..nonterminals {
        for _ in 0..1 + random.below(3) {
            productions.push(production(random, left, nonterminals, &used));
        }
    }
    // Left sides need not stand in order.
    if random.percent(30) {
        let (a, b) = (random.below(productions.len()), random.below(productions.len()));
        productions.swap(a, b);
    }
    Case { domain, nonterminals, kinds, productions }
}

/// A random table that passes: each clash of a random one is taken away by tests that never both say yes, or by a
/// kind less in a sight set.
pub fn passing_case(random: &mut Random) -> Case {
    let mut case = any_case(random);
    let sets = Sets::of(&case);
    let mut tries = 0;
    while let Verdict::Clash(a, b, k, ..) = strong_test(&case, &sets) {
        tries += 1;
        if tries < 6 && random.percent(60) {
            let apart = match case.domain {
                Domain::Minutes { .. } => random.one(&[(1, 2), (2, 1), (3, 4), (4, 3), (1, 3)]),
                Domain::Posts { .. } => random.one(&[(1, 2), (2, 1)]),
            };
            (case.productions[a].test, case.productions[b].test) = apart;
        } else {
            let narrowed = random.one(&[a, b]);
            case.productions[narrowed].sight &= !(1 << k);
        }
    }
    case
}

fn domain(random: &mut Random) -> Domain {
    if random.percent(50) {
        let cuts = random.one(&[&[][..], &[1], &[2, 5], &[90], &[1, 2, 3, 4, 5, 6, 7]]);
        let limit = random.one(&[90, 120, 1440, 65535]);
        Domain::minutes(limit, cuts.to_vec()).unwrap()
    } else {
        let posts = random.one(&[1, 2, 2, 3, 3, 6]);
        Domain::posts(posts).unwrap()
    }
}

fn few_kinds(random: &mut Random) -> (usize, Vec<usize>) {
    let kinds = 1 + random.below(4);
    (kinds, (0..kinds).collect())
}

fn rule(random: &mut Random, slots: usize) -> Rule {
    (random.one(&[0, 1, 2, 2, 3, 4]), random.below(slots), random.below(slots))
}

fn production(random: &mut Random, left: usize, nonterminals: usize, used: &[usize]) -> Production {
    let count = random.one(&[0, 0, 1, 1, 1, 2, 2, 2, 3, 3, 4, 8]);
    let mut items = Vec::new();
    for place in 1..=count {
        items.push(match random.below(100) {
            0..=49 => Item::Kind(random.one(used)),
            50..=84 => Item::Nonterminal(random.below(nonterminals), rule(random, place)),
            _ => Item::Check(random.one(&[0, 0, 1, 1, 2, 3, 4]), random.below(place), random.below(place)),
        });
    }
    let sight = match random.below(10) {
        0 => random.next(),
        1 => 1 << END | 1 << random.one(used),
        2 => !(1 << random.one(used)),
        3 => !(1 << END),
        _ => u64::MAX,
    };
    let test = random.one(&[0, 0, 0, 0, 1, 1, 2, 2, 3, 4, 5]);
    Production { left, test, sight, result: rule(random, count + 1), items }
}

/// The lines of all worked tables, then so many random ones, of which about every second passes.
pub fn lines(seed: u64, count: usize) -> Vec<String> {
    let mut random = Random(seed);
    let mut lines: Vec<String> = crate::worked::all().iter().map(|worked| worked.case.line()).collect();
    for _ in 0..count {
        let case = if random.percent(8) { passing_case(&mut random) } else { any_case(&mut random) };
        assert!(case.well_formed());
        lines.push(case.line());
    }
    lines
}

#[cfg(test)]
mod tests {
    use super::*;

    #[test]
    fn passing_and_clashing_tables_are_both_common() {
        let lines = lines(1, 2000);
        let passing = lines.iter().filter(|line| crate::sets::answer(&Case::read(line).unwrap()).ends_with("passes")).count();
        let share = passing * 100 / lines.len();
        assert!((40..=60).contains(&share), "{share} of a hundred pass");
    }
}
