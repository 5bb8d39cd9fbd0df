//! The sets of a table and the strong test, as plainly as they are defined.

use crate::table::{Case, Item, END};
use std::collections::BTreeSet;

/// A set of kinds.
pub type Set = BTreeSet<usize>;

#[derive(Default)]
pub struct Sets {
    /// Whether each nonterminal can be empty.
    pub empty: Vec<bool>,
    pub first: Vec<Set>,
    pub follow: Vec<Set>,
    /// One set for each production.
    pub predict: Vec<Set>,
}

#[derive(Debug, PartialEq)]
pub enum Verdict {
    Passes,
    /// Two productions, a kind, the class of the inherited value and the class of the word.
    Clash(usize, usize, usize, usize, usize),
    /// The domain has too many classes.
    Classes(usize),
}

impl Sets {
    /// The smallest sets: all begin empty and grow by their rules until none grows any more.
    pub fn of(case: &Case) -> Sets {
        let n = case.nonterminals;
        let mut sets =
            Sets { empty: vec![false; n], first: vec![Set::new(); n], follow: vec![Set::new(); n], predict: Vec::new() };
        while sets.grow_empty(case) {}
        while sets.grow_first(case) {}
        sets.follow[0].insert(END);
        while sets.grow_follow(case) {}
        for p in &case.productions {
            let mut predict = sets.first_of(&p.items);
            if sets.all_empty(&p.items) {
                predict.extend(&sets.follow[p.left]);
            }
            sets.predict.push(predict);
        }
        sets
    }

    fn can_be_empty(&self, item: &Item) -> bool {
        match *item {
            Item::Kind(_) => false,
            Item::Nonterminal(b, _) => self.empty[b],
            Item::Check(..) => true,
        }
    }

    fn all_empty(&self, items: &[Item]) -> bool {
        items.iter().all(|item| self.can_be_empty(item))
    }

    /// First of a run of items.
    fn first_of(&self, items: &[Item]) -> Set {
        let mut first = Set::new();
        for item in items {
            match *item {
                Item::Kind(kind) => {
                    first.insert(kind);
                }
                Item::Nonterminal(b, _) => first.extend(&self.first[b]),
                Item::Check(..) => {}
            }
            if !self.can_be_empty(item) {
                break;
            }
        }
        first
    }

    fn grow_empty(&mut self, case: &Case) -> bool {
        let mut grown = false;
        for p in &case.productions {
            if !self.empty[p.left] && self.all_empty(&p.items) {
                self.empty[p.left] = true;
                grown = true;
            }
        }
        grown
    }

    fn grow_first(&mut self, case: &Case) -> bool {
        let mut grown = false;
        for p in &case.productions {
            let first = self.first_of(&p.items);
            grown |= add(&mut self.first[p.left], &first);
        }
        grown
    }

    fn grow_follow(&mut self, case: &Case) -> bool {
        let mut grown = false;
        for p in &case.productions {
            for (i, item) in p.items.iter().enumerate() {
                if let Item::Nonterminal(b, _) = *item {
                    let after = &p.items[i + 1..];
                    let mut follow = self.first_of(after);
                    if self.all_empty(after) {
                        follow.extend(&self.follow[p.left]);
                    }
                    grown |= add(&mut self.follow[b], &follow);
                }
            }
        }
        grown
    }
}

/// Adds the kinds to the set, and tells whether one of them is new.
fn add(set: &mut Set, kinds: &Set) -> bool {
    let before = set.len();
    set.extend(kinds);
    set.len() > before
}

/// The strong test: the first clash in the order of its five numbers.
pub fn strong_test(case: &Case, sets: &Sets) -> Verdict {
    let classes = case.domain.classes();
    if classes > 64 {
        return Verdict::Classes(classes);
    }
    let ps = &case.productions;
    for a in 0..ps.len() {
        for b in a + 1..ps.len() {
            for k in 0..=END {
                let meet = ps[a].left == ps[b].left
                    && sets.predict[a].contains(&k)
                    && sets.predict[b].contains(&k)
                    && ps[a].sees(k)
                    && ps[b].sees(k);
                if !meet {
                    continue;
                }
                for i in 0..classes {
                    for j in 0..if k == END { 1 } else { classes } {
                        if case.domain.test(ps[a].test, i, j) && case.domain.test(ps[b].test, i, j) {
                            return Verdict::Clash(a, b, k, i, j);
                        }
                    }
                }
            }
        }
    }
    Verdict::Passes
}

/// The answer to a case, as one line.
pub fn answer(case: &Case) -> String {
    let number = |set: &Set| set.iter().fold(0u64, |sum, &kind| sum | 1 << kind).to_string();
    let sets = Sets::of(case);
    let mut words = Vec::new();
    for a in 0..case.nonterminals {
        words.push((sets.empty[a] as u64).to_string());
        words.push(number(&sets.first[a]));
        words.push(number(&sets.follow[a]));
    }
    words.extend(sets.predict.iter().map(number));
    words.push(match strong_test(case, &sets) {
        Verdict::Passes => "passes".to_string(),
        Verdict::Clash(a, b, k, i, j) => format!("clash {a} {b} {k} {i} {j}"),
        Verdict::Classes(classes) => format!("classes {classes}"),
    });
    words.join(" ")
}
