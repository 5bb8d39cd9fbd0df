//! Tables of productions, and a case: a domain with a table, written as one line of decimal numbers.

use crate::domain::{Domain, Value};

/// The end mark: a kind in sight that is no word.
pub const END: usize = 63;

/// A rule number and the two slots that it is applied to.
pub type Rule = (u8, usize, usize);

#[derive(Clone, Debug, PartialEq)]
pub enum Item {
    Kind(usize),
    Nonterminal(usize, Rule),
    /// A check number and two slots.
    Check(u8, usize, usize),
}

#[derive(Clone, Debug, PartialEq)]
pub struct Production {
    pub left: usize,
    pub test: u8,
    /// Bit k stands for kind k.
    pub sight: u64,
    pub result: Rule,
    pub items: Vec<Item>,
}

impl Production {
    pub fn sees(&self, kind: usize) -> bool {
        kind < 64 && self.sight >> kind & 1 == 1
    }
}

/// A word is offered as its kind and value.
pub type Word = (usize, Value);

#[derive(Clone, Debug, PartialEq)]
pub struct Case {
    pub domain: Domain,
    pub nonterminals: usize,
    pub kinds: usize,
    pub productions: Vec<Production>,
}

impl Case {
    /// Whether every rule of tables holds.
    pub fn well_formed(&self) -> bool {
        let production = |p: &Production| {
            let item = |place: usize, item: &Item| match *item {
                Item::Kind(kind) => kind < self.kinds,
                Item::Nonterminal(b, (_, x, y)) => b < self.nonterminals && x < place && y < place,
                Item::Check(_, x, y) => x < place && y < place,
            };
            p.left < self.nonterminals
                && p.items.len() <= 8
                && p.items.iter().enumerate().all(|(i, it)| item(i + 1, it))
                && p.result.1 <= p.items.len()
                && p.result.2 <= p.items.len()
        };
        (1..=64).contains(&self.nonterminals)
            && (1..=63).contains(&self.kinds)
            && (1..=126).contains(&self.productions.len())
            && self.productions.iter().all(production)
            && (0..self.nonterminals).all(|a| self.productions.iter().any(|p| p.left == a))
    }

    /// Reads a case from its line; None where the line is no case or the table breaks a rule.
    pub fn read(line: &str) -> Option<Case> {
        let mut numbers = Numbers(line.split(' '));
        let domain = match numbers.next()? {
            1 => {
                let limit = numbers.next()?.try_into().ok()?;
                let count = numbers.next()?;
                let cuts = (0..count).map(|_| numbers.next()?.try_into().ok());
                Domain::minutes(limit, cuts.collect::<Option<_>>()?)?
            }
            2 => Domain::posts(numbers.next()?.try_into().ok()?)?,
            _ => return None,
        };
        let nonterminals = numbers.index()?;
        let kinds = numbers.index()?;
        let count = numbers.index()?;
        let productions = (0..count).map(|_| numbers.production());
        let productions = productions.collect::<Option<_>>()?;
        let case = Case { domain, nonterminals, kinds, productions };
        (numbers.0.next().is_none() && case.well_formed()).then_some(case)
    }

    /// The line of a case.
    pub fn line(&self) -> String {
        let mut line: Vec<u64> = Vec::new();
        match &self.domain {
            Domain::Minutes { limit, cuts } => {
                line.extend([1, *limit as u64, cuts.len() as u64]);
                line.extend(cuts.iter().map(|&cut| cut as u64));
            }
            Domain::Posts { posts } => line.extend([2, *posts as u64]),
        }
        let counts = [self.nonterminals, self.kinds, self.productions.len()];
        line.extend(counts.map(|count| count as u64));
        for p in &self.productions {
            line.extend([p.left as u64, p.test as u64, p.sight]);
            line.extend([p.result.0 as u64, p.result.1 as u64, p.result.2 as u64]);
            line.push(p.items.len() as u64);
            for item in &p.items {
                match *item {
                    Item::Kind(kind) => line.extend([1, kind as u64]),
                    Item::Nonterminal(b, (r, x, y)) => line.extend([2, b as u64, r as u64, x as u64, y as u64]),
                    Item::Check(c, x, y) => line.extend([3, c as u64, x as u64, y as u64]),
                }
            }
        }
        line.iter().map(u64::to_string).collect::<Vec<_>>().join(" ")
    }
}

/// The numbers of a line, from the left.
struct Numbers<'a>(std::str::Split<'a, char>);

impl Numbers<'_> {
    fn next(&mut self) -> Option<u64> {
        self.0.next()?.parse().ok()
    }

    fn index(&mut self) -> Option<usize> {
        self.next()?.try_into().ok()
    }

    fn byte(&mut self) -> Option<u8> {
        self.next()?.try_into().ok()
    }

    fn rule(&mut self) -> Option<Rule> {
        Some((self.byte()?, self.index()?, self.index()?))
    }

    fn item(&mut self) -> Option<Item> {
        Some(match self.next()? {
            1 => Item::Kind(self.index()?),
            2 => Item::Nonterminal(self.index()?, self.rule()?),
            3 => Item::Check(self.byte()?, self.index()?, self.index()?),
            _ => return None,
        })
    }

    fn production(&mut self) -> Option<Production> {
        let (left, test, sight, result) = (self.index()?, self.byte()?, self.next()?, self.rule()?);
        let count = self.index()?;
        let items = (0..count).map(|_| self.item()).collect::<Option<_>>()?;
        Some(Production { left, test, sight, result, items })
    }
}
