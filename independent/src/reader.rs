//! A reader with one word of sight, over value memory in which slot s of the production at depth d lies at 9 d + s.

use crate::domain::Value;
use crate::sets::{Set, Sets};
use crate::table::{Case, Item, Rule, Word, END};

/// The most predictions in sight of one word or of the end mark, open productions, and trail entries.
#[derive(Clone, Copy, Debug, PartialEq)]
pub struct Limits {
    pub sight: usize,
    pub open: usize,
    pub trail: usize,
}

#[cfg(test)]
pub const LIMITS: Limits = Limits { sight: 128, open: 256, trail: 4096 };

/// What the next word or prediction has to answer to.
#[derive(Clone, Copy, Debug, PartialEq)]
enum Outstanding {
    Kind(usize),
    /// A nonterminal and the value that it inherits.
    Nonterminal(usize, Value),
    /// Nothing: the sheet has this value.
    Nothing(Value),
}

/// What a reading remembers.
#[derive(Clone, Debug, PartialEq)]
pub struct State {
    /// The open productions from the outermost, each with the count of its items that are done.
    open: Vec<(usize, usize)>,
    memory: Vec<Value>,
    outstanding: Outstanding,
    pub trail: Vec<usize>,
}

pub struct Reader<'a> {
    case: &'a Case,
    predict: Vec<Set>,
    limits: Limits,
    pub state: State,
}

/// The number of a refusal.
pub type Refusal = u8;

impl<'a> Reader<'a> {
    /// Begins a reading on a table that passes.
    pub fn begin(case: &'a Case, limits: Limits) -> Reader<'a> {
        let outstanding = Outstanding::Nonterminal(0, case.domain.opening());
        let memory = vec![0; 9 * limits.open];
        let state = State { open: Vec::new(), memory, outstanding, trail: Vec::new() };
        Reader { case, predict: Sets::of(case).predict, limits, state }
    }

    pub fn restart(&mut self) {
        self.state.open.clear();
        self.state.trail.clear();
        self.state.outstanding = Outstanding::Nonterminal(0, self.case.domain.opening());
    }

    /// Offers a word. A denial leaves the state as it was.
    pub fn offer(&mut self, word: Word) -> Result<(), Refusal> {
        if word.0 >= self.case.kinds {
            return Err(17);
        }
        let before = self.state.clone();
        let outcome = self.run(Some(word));
        if outcome.is_err() {
            self.state = before;
        }
        outcome.map(|_| ())
    }

    /// Closes the reading, or leaves the state as it was. Gives the value; the trail is in the state.
    pub fn close(&mut self) -> Result<Value, Refusal> {
        let before = self.state.clone();
        let outcome = self.run(None);
        if outcome.is_err() {
            self.state = before;
        }
        outcome
    }

    /// Runs in sight of a word until it is taken, or in sight of the end mark until nothing is outstanding.
    fn run(&mut self, word: Option<Word>) -> Result<Value, Refusal> {
        let (kind, class) = match word {
            Some((kind, value)) => (kind, self.case.domain.class(value)),
            None => (END, 0),
        };
        let mut predictions = 0;
        loop {
            match (self.state.outstanding, word) {
                (Outstanding::Nothing(value), None) => return Ok(value),
                (Outstanding::Nothing(_), Some(_)) => return Err(18),
                (Outstanding::Nonterminal(nonterminal, inherited), _) => {
                    let p = self.choose(nonterminal, inherited, kind, class).ok_or(19)?;
                    predictions += 1;
                    if predictions > self.limits.sight {
                        return Err(20);
                    }
                    if self.state.open.len() == self.limits.open {
                        return Err(21);
                    }
                    if self.state.trail.len() == self.limits.trail {
                        return Err(22);
                    }
                    self.state.trail.push(p);
                    self.state.open.push((p, 0));
                    *self.slot(0) = inherited;
                    self.settle()?;
                }
                (Outstanding::Kind(wanted), Some((kind, value))) if wanted == kind => {
                    self.fill(value);
                    self.settle()?;
                    return Ok(value);
                }
                (Outstanding::Kind(_), _) => return Err(23),
            }
        }
    }

    /// The lowest production that is allowed and whose Predict set holds the kind in sight.
    fn choose(&self, nonterminal: usize, inherited: Value, kind: usize, class: usize) -> Option<usize> {
        let domain = &self.case.domain;
        self.case.productions.iter().enumerate().position(|(number, p)| {
            p.left == nonterminal
                && p.sees(kind)
                && domain.test(p.test, domain.class(inherited), class)
                && self.predict[number].contains(&kind)
        })
    }

    /// A slot of the innermost open production.
    fn slot(&mut self, slot: usize) -> &mut Value {
        let depth = self.state.open.len() - 1;
        &mut self.state.memory[9 * depth + slot]
    }

    /// Fills the slot of the innermost production's next item, which is then done.
    fn fill(&mut self, value: Value) {
        let top = self.state.open.last_mut().expect("an open production");
        top.1 += 1;
        let slot = top.1;
        *self.slot(slot) = value;
    }

    fn apply(&mut self, (number, first, second): Rule) -> Value {
        let (first, second) = (*self.slot(first), *self.slot(second));
        self.case.domain.rule(number, first, second)
    }

    /// Passes checks and finishes productions until a kind or a nonterminal comes next, or nothing does.
    fn settle(&mut self) -> Result<(), Refusal> {
        let case = self.case;
        loop {
            let &(p, done) = self.state.open.last().expect("an open production");
            match case.productions[p].items.get(done) {
                Some(&Item::Kind(kind)) => {
                    self.state.outstanding = Outstanding::Kind(kind);
                    return Ok(());
                }
                Some(&Item::Nonterminal(nonterminal, rule)) => {
                    self.state.outstanding = Outstanding::Nonterminal(nonterminal, self.apply(rule));
                    return Ok(());
                }
                Some(&Item::Check(number, first, second)) => {
                    let (first, second) = (*self.slot(first), *self.slot(second));
                    if !case.domain.check(number, first, second) {
                        return Err(24);
                    }
                    self.fill(first);
                }
                None => {
                    let value = self.apply(case.productions[p].result);
                    self.state.open.pop();
                    if self.state.open.is_empty() {
                        self.state.outstanding = Outstanding::Nothing(value);
                        return Ok(());
                    }
                    self.fill(value);
                }
            }
        }
    }
}

#[cfg(test)]
mod tests {
    use super::*;
    use crate::worked::{table_q, table_s, table_w};

    const WHEN: Word = (1, 0);
    const PARK: Word = (2, 0);
    const ELSE: Word = (3, 0);

    fn offered<'a>(case: &'a Case, words: &[Word]) -> Reader<'a> {
        let mut reader = Reader::begin(case, LIMITS);
        for &word in words {
            assert_eq!(reader.offer(word), Ok(()));
        }
        reader
    }

    #[test]
    fn orders_that_wait() {
        let w = table_w();
        let mut reader = offered(&w, &[WHEN, WHEN, PARK, ELSE, PARK]);
        assert_eq!(reader.close(), Ok(0));
        assert_eq!(reader.state.trail, [0, 0, 1, 2, 1, 3]);
        let mut reader = offered(&w, &[WHEN]);
        let before = reader.state.clone();
        assert_eq!(reader.offer(ELSE), Err(19));
        assert_eq!(reader.state, before);
        assert_eq!(reader.state.trail, [0]);
        assert_eq!(offered(&w, &[]).close(), Err(19));
        assert_eq!(offered(&w, &[WHEN]).offer((4, 0)), Err(17));
        assert_eq!(offered(&w, &[PARK]).offer(PARK), Err(18));
    }

    #[test]
    fn orders_at_the_limits() {
        let w = table_w();
        let waiting = |count| [vec![WHEN; count], vec![PARK]].concat();
        let mut reader = offered(&w, &waiting(128));
        assert_eq!(reader.close(), Ok(0));
        assert_eq!(reader.state.trail, [vec![0; 128], vec![1], vec![3; 128]].concat());
        let mut reader = offered(&w, &waiting(129));
        assert_eq!(reader.close(), Err(20));
        assert_eq!(reader.state.trail, [vec![0; 129], vec![1]].concat());
        assert_eq!(offered(&w, &[WHEN; 256]).offer(WHEN), Err(21));
        assert_eq!(offered(&w, &[WHEN; 256]).offer(PARK), Err(21));
        assert_eq!(offered(&w, &[WHEN; 255]).offer(PARK), Ok(()));
    }

    #[test]
    fn the_longest_trail() {
        // Every word takes 1 + 6 × (1 + 4) = 31 predictions: 132 words make 4,092, and the next needs 4,123.
        let line =
            "2 1 3 2 3 0 0 18446744073709551615 0 0 0 8 2 1 0 0 0 2 1 0 0 0 2 1 0 0 0 2 1 0 0 0 2 1 0 0 0 2 1 0 0 0 1 1 \
                    2 0 0 0 0 1 0 18446744073709551615 0 0 0 4 2 2 0 0 0 2 2 0 0 0 2 2 0 0 0 2 2 0 0 0 \
                    2 0 18446744073709551615 0 0 0 0";
        let case = Case::read(line).unwrap();
        let mut reader = offered(&case, &[(1, 0); 132]);
        assert_eq!(reader.state.trail.len(), 4092);
        assert_eq!(reader.offer((1, 0)), Err(22));
        assert_eq!(reader.state.trail.len(), 4092);
    }

    #[test]
    fn posts_none_twice() {
        let q = table_q();
        let mut reader = offered(&q, &[(1, 1), (1, 4)]);
        assert_eq!(reader.offer((1, 1)), Err(19));
        assert_eq!(reader.close(), Ok(5));
        assert_eq!(reader.state.trail, [0, 0, 1]);
        let mut reader = offered(&q, &[]);
        assert_eq!(reader.close(), Ok(0));
        assert_eq!(reader.state.trail, [1]);
    }

    #[test]
    fn numbers_below_the_cut_and_above() {
        let s = table_s();
        let mut reader = offered(&s, &[(0, 89)]);
        assert_eq!(reader.close(), Ok(0));
        assert_eq!(reader.state.trail, [0]);
        let mut reader = offered(&s, &[(0, 90)]);
        assert_eq!(reader.state.trail, [1]);
        assert_eq!(reader.close(), Err(23));
        assert_eq!(reader.offer((0, 30)), Ok(()));
        assert_eq!(reader.close(), Ok(0));
        assert_eq!(reader.state.trail, [1]);
    }
}
