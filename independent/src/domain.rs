//! The two domains. A value is a number from 0 to 65,535: minutes, or a set of posts with bit b for post b + 1.

pub type Value = u16;

#[derive(Clone, Debug, PartialEq)]
pub enum Domain {
    Minutes { limit: u16, cuts: Vec<u16> },
    Posts { posts: u32 },
}

use Domain::*;

impl Domain {
    /// Minutes: a limit from 1, and up to seven cuts, strictly rising, each from 1 to the limit.
    pub fn minutes(limit: u16, cuts: Vec<u16>) -> Option<Domain> {
        let rising = cuts.windows(2).all(|pair| pair[0] < pair[1]);
        let inside = cuts.iter().all(|&cut| 1 <= cut && cut <= limit);
        (limit >= 1 && cuts.len() <= 7 && rising && inside).then_some(Minutes { limit, cuts })
    }

    /// Posts: one to six of them.
    pub fn posts(posts: u32) -> Option<Domain> {
        (1 <= posts && posts <= 6).then_some(Posts { posts })
    }

    /// The class count K.
    pub fn classes(&self) -> usize {
        match self {
            Minutes { cuts, .. } => cuts.len() + 1,
            Posts { posts } => 1 << posts,
        }
    }

    /// The value that the first nonterminal inherits.
    pub fn opening(&self) -> Value {
        0
    }

    pub fn class(&self, value: Value) -> usize {
        match self {
            Minutes { cuts, .. } => cuts.iter().filter(|&&cut| cut <= value).count(),
            Posts { .. } => value as usize % self.classes(),
        }
    }

    pub fn rule(&self, number: u8, first: Value, second: Value) -> Value {
        match (self, number) {
            (_, 1) => second,
            (Minutes { limit, .. }, 2) => (first as u32 + second as u32).min(*limit as u32) as u16,
            (Minutes { .. }, 3) => first.saturating_sub(second),
            (Posts { .. }, 2) => first | second,
            (Posts { .. }, 3) => first & !second,
            _ => first,
        }
    }

    pub fn check(&self, number: u8, first: Value, second: Value) -> bool {
        match (self, number) {
            (_, 0) => true,
            (_, 2) => first == second,
            (Minutes { .. }, 1) => first <= second,
            (Posts { .. }, 1) => first & !second == 0,
            (Posts { .. }, 3) => first & second == 0,
            _ => false,
        }
    }

    /// What a test says at the class `i` of the inherited value and the class `j` of the word.
    pub fn test(&self, number: u8, i: usize, j: usize) -> bool {
        if number == 0 {
            return true;
        }
        if i >= self.classes() || j >= self.classes() {
            return false;
        }
        match (self, number) {
            (Minutes { .. }, 1) => i == j,
            (Minutes { .. }, 2) => i != j,
            (Minutes { .. }, 3) => i < j,
            (Minutes { .. }, 4) => i >= j,
            (Posts { .. }, 1) => i & j == 0,
            (Posts { .. }, 2) => i & j != 0,
            (Posts { .. }, 3) => i == j,
            _ => false,
        }
    }
}

#[cfg(test)]
mod tests {
    use super::*;

    #[test]
    fn minutes() {
        let minutes = Domain::minutes(1440, vec![90]).unwrap();
        assert_eq!(minutes.rule(2, 900, 900), 1440);
        assert_eq!(minutes.rule(2, 700, 740), 1440);
        assert_eq!(minutes.rule(3, 30, 40), 0);
        assert_eq!([0, 89, 90, 65535].map(|value| minutes.class(value)), [0, 0, 1, 1]);
        assert!(minutes.test(3, 0, 1) && !minutes.test(3, 0, 2) && minutes.test(0, 0, 2));
        assert_eq!(Domain::minutes(0, vec![]), None);
        assert_eq!(Domain::minutes(90, vec![90, 90]), None);
        assert_eq!(Domain::minutes(90, vec![91]), None);
    }

    #[test]
    fn posts() {
        let posts = Domain::posts(3).unwrap();
        assert_eq!(posts.classes(), 8);
        assert_eq!(posts.class(13), 5);
        assert_eq!(posts.rule(3, 7, 5), 2);
        assert!(posts.check(1, 5, 13) && !posts.check(1, 13, 5));
        assert!(posts.test(1, 5, 2) && posts.test(2, 5, 4) && !posts.test(3, 8, 8));
        assert_eq!(Domain::posts(0), None);
        assert_eq!(Domain::posts(7), None);
    }
}
