//! All derivations of a list of words, found by trying every production that is allowed. First, Follow and Predict are
//! not used here, nor is the order of productions: a derivation is a trail that can be followed to its end.

use crate::domain::Value;
use crate::reader::Limits;
use crate::table::{Case, Item, Word, END};

/// A production that has not finished: its number, and its slots as far as they are filled. Slot 0 is the inherited
/// value, so that the count of slots less one is the count of items passed.
#[derive(Clone, Debug)]
struct Open {
    production: usize,
    slots: Vec<Value>,
}

#[derive(Clone, Debug)]
enum Next {
    Kind(usize),
    Nonterminal(usize, Value),
    Finished(Value),
}

#[derive(Clone, Debug)]
pub struct Derivation {
    open: Vec<Open>,
    next: Next,
    pub trail: Vec<usize>,
    /// Predictions in the present sight, and the most in any sight.
    predictions: usize,
    most_predictions: usize,
    /// The most productions that were open together.
    most_open: usize,
}

impl Derivation {
    /// The derivation of no words, which is empty.
    fn start(case: &Case) -> Derivation {
        let next = Next::Nonterminal(0, case.domain.opening());
        Derivation { open: Vec::new(), next, trail: Vec::new(), predictions: 0, most_predictions: 0, most_open: 0 }
    }

    pub fn within(&self, limits: Limits) -> bool {
        self.most_predictions <= limits.sight && self.most_open <= limits.open && self.trail.len() <= limits.trail
    }

    /// The value of a finished derivation.
    pub fn value(&self) -> Option<Value> {
        match self.next {
            Next::Finished(value) => Some(value),
            _ => None,
        }
    }

    /// This derivation with one prediction more, if the attempt does not end there.
    fn predicting(&self, case: &Case, production: usize, inherited: Value) -> Option<Derivation> {
        let mut more = self.clone();
        more.open.push(Open { production, slots: vec![inherited] });
        more.trail.push(production);
        more.predictions += 1;
        more.most_predictions = more.most_predictions.max(more.predictions);
        more.most_open = more.most_open.max(more.open.len());
        more.settled(case)
    }

    /// This derivation with a word taken, if the attempt does not end there.
    fn taking(&self, case: &Case, value: Value) -> Option<Derivation> {
        let mut more = self.clone();
        more.open.last_mut()?.slots.push(value);
        more.predictions = 0;
        more.settled(case)
    }

    /// Passes one check or finishes one production, and goes on so; None where a check says no.
    fn settled(mut self, case: &Case) -> Option<Derivation> {
        let mut top = self.open.pop().expect("a production was opened or a word taken");
        let production = &case.productions[top.production];
        let passed = top.slots.len() - 1;
        if passed == production.items.len() {
            let (rule, first, second) = production.result;
            let value = case.domain.rule(rule, top.slots[first], top.slots[second]);
            let Some(above) = self.open.last_mut() else {
                self.next = Next::Finished(value);
                return Some(self);
            };
            above.slots.push(value);
            return self.settled(case);
        }
        match production.items[passed] {
            Item::Check(check, first, second) => {
                if !case.domain.check(check, top.slots[first], top.slots[second]) {
                    return None;
                }
                top.slots.push(top.slots[first]);
                self.open.push(top);
                return self.settled(case);
            }
            Item::Kind(kind) => self.next = Next::Kind(kind),
            Item::Nonterminal(nonterminal, (rule, first, second)) => {
                self.next = Next::Nonterminal(nonterminal, case.domain.rule(rule, top.slots[first], top.slots[second]))
            }
        }
        self.open.push(top);
        Some(self)
    }
}

/// A search for derivations. It gives up a derivation that leaves the bounds; with left recursion, or with nonterminals
/// that are empty in endless ways, there would be no end otherwise. What is found within the bounds is complete; a
/// derivation beyond them is not seen.
pub struct Deriver<'a> {
    pub case: &'a Case,
    pub bounds: Limits,
}

impl Deriver<'_> {
    /// The open derivations of the words.
    pub fn open(&self, words: &[Word]) -> Vec<Derivation> {
        let mut derivations = vec![Derivation::start(self.case)];
        for &word in words {
            derivations = self.open_further(&derivations, word);
        }
        derivations
    }

    /// The open derivations of some words and one more, from those of these words.
    pub fn open_further(&self, derivations: &[Derivation], word: Word) -> Vec<Derivation> {
        let mut found = Vec::new();
        for derivation in derivations {
            self.explore(derivation.clone(), Some(word), &mut found);
        }
        found
    }

    /// The finished derivations that go on from open ones.
    pub fn finished(&self, derivations: &[Derivation]) -> Vec<Derivation> {
        let mut found = Vec::new();
        for derivation in derivations {
            self.explore(Derivation { predictions: 0, ..derivation.clone() }, None, &mut found);
        }
        found
    }

    /// Goes on in every way in sight of a word until it is taken, or in sight of the end mark to the end.
    fn explore(&self, derivation: Derivation, word: Option<Word>, found: &mut Vec<Derivation>) {
        if !derivation.within(self.bounds) {
            return;
        }
        match (&derivation.next, word) {
            (Next::Finished(_), None) => found.push(derivation),
            (Next::Finished(_), Some(_)) => {}
            (Next::Kind(wanted), Some((kind, value))) if *wanted == kind => found.extend(derivation.taking(self.case, value)),
            (Next::Kind(_), _) => {}
            (&Next::Nonterminal(nonterminal, inherited), _) => {
                for number in 0..self.case.productions.len() {
                    if self.allowed(number, nonterminal, inherited, word) {
                        if let Some(more) = derivation.predicting(self.case, number, inherited) {
                            self.explore(more, word, found);
                        }
                    }
                }
            }
        }
    }

    /// Whether a production may be opened for the nonterminal, in sight of the word or of the end mark.
    fn allowed(&self, number: usize, nonterminal: usize, inherited: Value, word: Option<Word>) -> bool {
        let production = &self.case.productions[number];
        let domain = &self.case.domain;
        let (kind, class) = word.map_or((END, 0), |(kind, value)| (kind, domain.class(value)));
        production.left == nonterminal && production.sees(kind) && domain.test(production.test, domain.class(inherited), class)
    }
}

#[cfg(test)]
mod tests {
    use super::*;
    use crate::worked::table_w;

    const BOUNDS: Limits = Limits { sight: 8, open: 8, trail: 20 };

    /// Trails of the finished derivations of some words, given by their kinds.
    fn trails(case: &Case, kinds: &[usize]) -> Vec<Vec<usize>> {
        let deriver = Deriver { case, bounds: BOUNDS };
        let words: Vec<Word> = kinds.iter().map(|&kind| (kind, 0)).collect();
        deriver.finished(&deriver.open(&words)).into_iter().map(|derivation| derivation.trail).collect()
    }

    #[test]
    fn an_otherwise_belongs_to_the_nearest_condition() {
        assert_eq!(trails(&table_w(), &[1, 1, 2, 3, 2]), [[0, 0, 1, 2, 1, 3]]);
        assert_eq!(trails(&table_w(), &[1, 3]), [[0; 0]; 0]);
    }

    #[test]
    fn an_ambiguous_table_has_both_derivations() {
        let mut case = table_w();
        case.productions[3].sight = u64::MAX;
        assert_eq!(trails(&case, &[1, 1, 2, 3, 2]), [[0, 0, 1, 2, 1, 3], [0, 0, 1, 3, 2, 1]]);
    }

    #[test]
    fn left_recursion_is_followed_to_the_bound() {
        // 0 → 0 kind 1, 0 → kind 1: three words, one derivation, though every start of it is tried.
        let case = Case::read("2 1 1 2 2 0 0 18446744073709551615 0 0 0 2 2 0 0 0 0 1 1 0 0 18446744073709551615 0 0 0 1 1 1");
        assert_eq!(trails(&case.unwrap(), &[1, 1, 1]), [[0, 0, 1]]);
    }
}
