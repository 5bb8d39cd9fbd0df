//! Tables whose sets were worked out by hand, most of them well known from the literature on top-down parsing with
//! attributes and predicates. The expectations are written down beside each table; none was taken from a program.

use crate::domain::Domain;
use crate::table::{Case, Item, Production, END};

const FULL: u64 = u64::MAX;

/// A table with what its sets are: one entry for each nonterminal, one Predict set for each production. Sets are
/// parted by commas; a dollar sign is the end mark, and a dash stands for the empty set.
#[cfg_attr(not(test), allow(dead_code))] // the tests read what is expected
pub struct Worked {
    pub name: &'static str,
    pub case: Case,
    /// Whether each nonterminal can be empty.
    pub empty: &'static str,
    pub first: &'static str,
    pub follow: &'static str,
    pub predict: &'static str,
    pub verdict: &'static str,
}

fn k(kind: usize) -> Item {
    Item::Kind(kind)
}

fn n(nonterminal: usize) -> Item {
    Item::Nonterminal(nonterminal, (0, 0, 0))
}

fn check(number: u8, first: usize, second: usize) -> Item {
    Item::Check(number, first, second)
}

fn minutes(limit: u16, cuts: &[u16]) -> Domain {
    Domain::minutes(limit, cuts.to_vec()).unwrap()
}

fn posts(posts: u32) -> Domain {
    Domain::posts(posts).unwrap()
}

/// A production with a full sight set and test 0, its result rule 0 of slots 0, 0.
fn to(left: usize, items: &[Item]) -> Production {
    Production { left, test: 0, sight: FULL, result: (0, 0, 0), items: items.to_vec() }
}

impl Production {
    fn test(self, test: u8) -> Production {
        Production { test, ..self }
    }

    fn without(self, kind: usize) -> Production {
        Production { sight: self.sight & !(1 << kind), ..self }
    }

    fn only(self, kind: usize) -> Production {
        Production { sight: 1 << kind, ..self }
    }
}

fn case(domain: Domain, nonterminals: usize, kinds: usize, productions: Vec<Production>) -> Case {
    Case { domain, nonterminals, kinds, productions }
}

/// The same table with every test 0 and every sight set full.
fn bare(case: &Case) -> Case {
    let productions = case.productions.iter().map(|p| Production { test: 0, sight: FULL, ..p.clone() });
    Case { productions: productions.collect(), ..case.clone() }
}

/// WHEN 1, PARK 2, ELSE 3: an order may wait for a charge, and may say what happens otherwise.
pub fn table_w() -> Case {
    let productions = vec![to(0, &[k(1), n(0), n(1)]), to(0, &[k(2)]), to(1, &[k(3), n(0)]), to(1, &[]).without(3)];
    case(minutes(1440, &[]), 2, 4, productions)
}

/// Posts in any order, none twice: the value inherited is the set of those already named.
pub fn table_q() -> Case {
    let again = Item::Nonterminal(0, (2, 0, 1));
    let named = Production { result: (1, 0, 2), ..to(0, &[k(1), again]) };
    case(posts(3), 1, 2, vec![named.test(1), to(0, &[])])
}

/// One number below the cut, or a number from the cut on and another.
pub fn table_s() -> Case {
    case(minutes(1440, &[90]), 1, 1, vec![to(0, &[k(0)]).test(1), to(0, &[k(0), k(0)]).test(2)])
}

/// All tables, in a fixed order.
pub fn all() -> Vec<Worked> {
    let mut all = Vec::new();
    let mut add = |name, case: Case, empty, first, follow, predict, verdict| {
        all.push(Worked { name, case, empty, first, follow, predict, verdict });
    };

    // First(0) is {WHEN, PARK}, First(1) is {ELSE}. ELSE may follow 0 inside 0 → WHEN 0 1; 1 can be empty, so what
    // follows 0 follows again, and 1 stands at the end of 0. Both Follow sets are {ELSE, end}.
    let (first, follow, predict) = ("1 2, 3", "3 $, 3 $", "1, 2, 3, 3 $");
    add("W", table_w(), "no yes", first, follow, predict, "passes");
    add("W with full sight sets", bare(&table_w()), "no yes", first, follow, predict, "clash 2 3 3 0 0");

    // The dangling ELSE in full: Stmt 0, ElsePart 1, Expr 2; IF 1, THEN 2, ELSE 3, OTHER 4, TRUE 5.
    // Without the predicate on the next word both productions of ElsePart are predicted at ELSE.
    let dangling = case(
        minutes(1440, &[]),
        3,
        6,
        vec![
            to(0, &[k(1), n(2), k(2), n(0), n(1)]),
            to(0, &[k(4)]),
            to(1, &[k(3), n(0)]),
            to(1, &[]).without(3),
            to(2, &[k(5)]),
        ],
    );
    let (first, follow, predict) = ("1 4, 3, 5", "3 $, 3 $, 2", "1, 4, 3, 3 $, 5");
    add("dangling ELSE, predicate", dangling.clone(), "no yes no", first, follow, predict, "passes");
    add("dangling ELSE, no predicate", bare(&dangling), "no yes no", first, follow, predict, "clash 2 3 3 0 0");

    // Constants under addition and multiplication, left recursive: Z 0, E 1, T 2; const 0, op 1. E inherits a
    // precedence, T the precedence of the operator that it waits for. The parsing table of the bare grammar has
    // Z → E at const; both E → const and E → E T at const; both T → op E T and T → ε at op; T → ε at the end.
    let arithmetic = case(
        minutes(100, &[1, 2, 3]),
        3,
        2,
        vec![
            to(0, &[n(1), check(1, 1, 1)]),
            to(1, &[k(0)]).test(1),
            to(1, &[n(1), n(2)]).test(2),
            to(2, &[k(1), n(1), check(0, 1, 2), n(2)]).test(1),
            to(2, &[]).test(2),
        ],
    );
    let mut half = arithmetic.clone();
    half.productions[4].test = 0;
    let (first, follow, predict) = ("0, 0, 1", "$, 1 $, 1 $", "0, 0, 0, 1, 1 $");
    add("precedence, predicates", arithmetic.clone(), "no no yes", first, follow, predict, "passes");
    add("precedence, one predicate less", half, "no no yes", first, follow, predict, "clash 3 4 1 0 0");
    add("precedence, no predicate", bare(&arithmetic), "no no yes", first, follow, predict, "clash 1 2 0 0 0");

    // E → T E′, E′ → + T E′ | ε, T → zero | one | ( E ): E 0, E′ 1, T 2; zero 1, one 2, + 3, ( 4, ) 5.
    add(
        "E to T E'",
        case(
            minutes(1440, &[]),
            3,
            6,
            vec![
                to(0, &[n(2), n(1)]),
                to(1, &[k(3), n(2), n(1)]),
                to(1, &[]),
                to(2, &[k(1)]),
                to(2, &[k(2)]),
                to(2, &[k(4), n(0), k(5)]),
            ],
        ),
        "no yes no",
        "1 2 4, 3, 1 2 4",
        "5 $, 5 $, 3 5 $",
        "1 2 4, 3, 5 $, 1, 2, 4",
        "passes",
    );

    // One nonterminal for each level of precedence: Expr 0 → Term 2 E-list 1, Term 2 → Factor 4 T-list 3,
    // Factor 4 → number or ( Expr ); number 0, + 1, - 2, * 3, / 4, ( 5, ) 6.
    add(
        "levels of precedence",
        case(
            minutes(1440, &[]),
            5,
            7,
            vec![
                to(0, &[n(2), n(1)]),
                to(1, &[k(1), n(2), n(1)]),
                to(1, &[k(2), n(2), n(1)]),
                to(1, &[]),
                to(2, &[n(4), n(3)]),
                to(3, &[k(3), n(4), n(3)]),
                to(3, &[k(4), n(4), n(3)]),
                to(3, &[]),
                to(4, &[k(0)]),
                to(4, &[k(5), n(0), k(6)]),
            ],
        ),
        "no yes no yes no",
        "0 5, 1 2, 0 5, 3 4, 0 5",
        "6 $, 6 $, 1 2 6 $, 1 2 6 $, 1 2 3 4 6 $",
        "0 5, 1, 2, 6 $, 0 5, 3, 4, 1 2 6 $, 0, 5",
        "passes",
    );

    // Z → const E, E → + const [add] E | ε, with a check in the place of the action: it is no word. Z 0, E 1;
    // const 0, + 1.
    add(
        "a sum with a check",
        case(minutes(9, &[]), 2, 2, vec![to(0, &[k(0), n(1)]), to(1, &[k(1), k(0), check(0, 0, 2), n(1)]), to(1, &[])]),
        "no yes",
        "0, 1",
        "$, $",
        "0, 1, $",
        "passes",
    );

    // A check before a word, and a production of checks alone: 0 → check 1 check kind 1, 1 → check check | kind 2.
    add(
        "checks are no words",
        case(
            minutes(1440, &[]),
            2,
            3,
            vec![
                to(0, &[check(0, 0, 0), n(1), check(2, 0, 2), k(1)]),
                to(1, &[check(0, 0, 0), check(1, 0, 1)]),
                to(1, &[k(2)]),
            ],
        ),
        "no yes",
        "1 2, 2",
        "$, 1",
        "1 2, 1, 2",
        "passes",
    );

    // Three options in any order, none twice, without attributes: S 0, AB 1, AC 2, BC 3, A 4, B 5, C 6; a 1, b 2, c 3.
    // Every nonterminal stands at the end only.
    add(
        "options without attributes",
        case(
            minutes(1440, &[]),
            7,
            4,
            vec![
                to(0, &[k(1), n(3)]),
                to(0, &[k(2), n(2)]),
                to(0, &[k(3), n(1)]),
                to(0, &[]),
                to(1, &[k(1), n(5)]),
                to(1, &[k(2), n(4)]),
                to(1, &[]),
                to(2, &[k(1), n(6)]),
                to(2, &[k(3), n(4)]),
                to(2, &[]),
                to(3, &[k(2), n(6)]),
                to(3, &[k(3), n(5)]),
                to(3, &[]),
                to(4, &[k(1)]),
                to(4, &[]),
                to(5, &[k(2)]),
                to(5, &[]),
                to(6, &[k(3)]),
                to(6, &[]),
            ],
        ),
        "yes yes yes yes yes yes yes",
        "1 2 3, 1 2, 1 3, 2 3, 1, 2, 3",
        "$, $, $, $, $, $, $",
        "1, 2, 3, $, 1, 2, $, 1, 3, $, 2, 3, $, 1, $, 2, $, 3, $",
        "passes",
    );

    // Three options with attributes: Z 0 → Option Option Option; Option 1 → a, if it is still allowed, or nothing, at
    // the end only. Every option is kind 1 with its own value. If the empty option may be predicted at an option too,
    // the first clash is at the first two sets with a common post.
    let options = case(posts(3), 2, 2, vec![to(0, &[n(1), n(1), n(1)]), to(1, &[k(1)]).test(2), to(1, &[]).only(END)]);
    let mut loose = options.clone();
    loose.productions[2].sight = FULL;
    let (first, follow, predict) = ("1, 1", "$, 1 $", "1 $, 1, 1 $");
    add("options with attributes", options, "yes yes", first, follow, predict, "passes");
    add("options, the empty one anywhere", loose, "yes yes", first, follow, predict, "clash 1 2 1 1 1");

    // A → A a | a: at every a both are predicted, and a follows A.
    let left = case(minutes(1440, &[60]), 1, 2, vec![to(0, &[n(0), k(1)]).test(2), to(0, &[k(1)]).test(1)]);
    let (first, follow, predict) = ("1", "1 $", "1, 1");
    add("left recursion, tests", left.clone(), "no", first, follow, predict, "passes");
    add("left recursion, no tests", bare(&left), "no", first, follow, predict, "clash 0 1 1 0 0");

    // A → A a | ε: what follows A is predicted by both.
    add(
        "left recursion from nothing",
        case(posts(2), 1, 2, vec![to(0, &[n(0), k(1)]).test(1), to(0, &[]).test(2)]),
        "yes",
        "1",
        "1 $",
        "1, 1 $",
        "passes",
    );

    // Expr 0 → Variable 1 | FunctionCall 2 | Constant 3. All begin with an identifier (1), which a test tells apart.
    let names = |constant: usize, tests: [u8; 3]| {
        let productions = vec![
            to(0, &[n(1)]).test(tests[0]),
            to(0, &[n(2)]).test(tests[1]),
            to(0, &[n(3)]).test(tests[2]),
            to(1, &[k(1)]),
            to(2, &[k(1), k(2), k(3)]),
            to(3, &[k(constant)]),
        ];
        case(minutes(9, &[1]), 4, 4, productions)
    };
    let (first, predict) = ("1, 1, 1, 1", "1, 1, 1, 1, 1, 1");
    add("names, no test", names(1, [0, 0, 0]), "no no no no", first, "$, $, $, $", predict, "clash 0 1 1 0 0");
    add("names, two tests", names(1, [3, 1, 4]), "no no no no", first, "$, $, $, $", predict, "clash 1 2 1 0 0");
    let (first, predict) = ("0 1, 1, 1, 0", "1, 1, 0, 1, 1, 0");
    add("names and numbers", names(0, [3, 4, 0]), "no no no no", first, "$, $, $, $", predict, "passes");

    // A → B C D | x y z, B → a b | a c by predicates, C → a check, D → d; A 0, B 1, C 2, D 3; a 1, b 2, c 3, x 4, y 5,
    // z 6, d 7.
    let lookahead = case(
        posts(1),
        4,
        8,
        vec![
            to(0, &[n(1), n(2), n(3)]),
            to(0, &[k(4), k(5), k(6)]),
            to(1, &[k(1), k(2)]).test(1),
            to(1, &[k(1), k(3)]).test(2),
            to(2, &[check(2, 0, 0)]),
            to(3, &[k(7)]),
        ],
    );
    let (first, follow, predict) = ("1 4, 1, -, 7", "$, 7, 7, $", "1, 4, 1, 1, 7, 7");
    let empty = "no no yes no";
    add("predicates below", lookahead.clone(), empty, first, follow, predict, "passes");
    add("no predicates below", bare(&lookahead), empty, first, follow, predict, "clash 2 3 1 0 0");

    // An actual parameter is an expression or a variable, as the formal one wants it: parameter 0, expression 1,
    // variable 2; number 0, name 1.
    let split = case(
        minutes(9, &[1]),
        3,
        2,
        vec![to(0, &[n(1)]).test(1), to(0, &[n(2)]).test(2), to(1, &[k(1)]), to(1, &[k(0)]), to(2, &[k(1)])],
    );
    let (first, predict) = ("0 1, 0 1, 1", "0 1, 1, 1, 0, 1");
    add("rule splitting", split.clone(), "no no no", first, "$, $, $", predict, "passes");
    add("no rule splitting", bare(&split), "no no no", first, "$, $, $", predict, "clash 0 1 1 0 0");

    // A → B, B → A: each would be empty if the other were. The smallest sets leave both out.
    add(
        "empty only through each other",
        case(posts(1), 2, 1, vec![to(0, &[n(1)]), to(1, &[n(0)])]),
        "no no",
        "-, -",
        "$, $",
        "-, -",
        "passes",
    );
    // The same circle with a way out at its far end: A → B, B → C, C → A | ε. All are empty, none begins a word.
    add(
        "empty through a circle",
        case(posts(1), 3, 1, vec![to(0, &[n(1)]), to(1, &[n(2)]), to(2, &[n(0)]), to(2, &[])]),
        "yes yes yes",
        "-, -, -",
        "$, $, $",
        "$, $, $, $",
        "clash 2 3 63 0 0",
    );
    // A → B C, B → C | a, C → B | ε. What begins C follows B, and what follows B follows C.
    add(
        "empty both ways",
        case(posts(1), 3, 2, vec![to(0, &[n(1), n(2)]), to(1, &[n(2)]), to(1, &[k(1)]), to(2, &[n(1)]), to(2, &[])]),
        "yes yes yes",
        "1, 1, 1",
        "$, 1 $, 1 $",
        "1 $, 1 $, 1, 1 $, 1 $",
        "clash 1 2 1 0 0",
    );

    // At the end mark only class 0 counts, where no class is below and no set has a post.
    let ends = |domain, test| case(domain, 1, 1, vec![to(0, &[]).test(test), to(0, &[check(0, 0, 0)])]);
    let (first, follow, predict) = ("-", "$", "$, $");
    add("the end mark, below", ends(minutes(9, &[1, 2]), 3), "yes", first, follow, predict, "passes");
    add("the end mark, unequal", ends(minutes(9, &[1, 2]), 2), "yes", first, follow, predict, "clash 0 1 63 1 0");
    add("the end mark, some common post", ends(posts(6), 2), "yes", first, follow, predict, "passes");
    add("the end mark, a test not named", ends(posts(6), 255), "yes", first, follow, predict, "passes");

    add("Q", table_q(), "yes", "1", "$", "1, $", "passes");

    // Both productions of S are predicted at a number; equal and unequal never both say yes, but equal and not below do.
    let mut other = table_s();
    other.productions[1].test = 4;
    let mut more = table_s();
    more.productions.push(to(0, &[k(0), k(0), k(0)]).test(3));
    let mut none = table_s();
    none.productions.push(to(0, &[]));
    add("S", table_s(), "no", "0", "$", "0, 0", "passes");
    add("S with test 4 for 2", other, "no", "0", "$", "0, 0", "clash 0 1 0 0 0");
    add("S with a third number", more, "no", "0", "$", "0, 0, 0", "clash 1 2 0 0 1");
    add("S or nothing", none, "yes", "0", "$", "0, 0, $", "passes");
    all
}

#[cfg(test)]
mod tests {
    use super::*;
    use crate::sets::{answer, Set, Sets};

    /// The sets that a text writes down.
    fn sets(text: &str) -> Vec<Set> {
        let kind = |word: &str| if word == "$" { END } else { word.parse().unwrap() };
        let set = |text: &str| text.split_whitespace().filter(|&word| word != "-").map(kind).collect();
        text.split(',').map(set).collect()
    }

    #[test]
    fn sets_are_those_worked_by_hand() {
        for worked in all() {
            assert!(worked.case.well_formed(), "{}", worked.name);
            let found = Sets::of(&worked.case);
            let empty: Vec<&str> = found.empty.iter().map(|&empty| if empty { "yes" } else { "no" }).collect();
            assert_eq!(empty.join(" "), worked.empty, "empty of {}", worked.name);
            assert_eq!(found.first, sets(worked.first), "First of {}", worked.name);
            assert_eq!(found.follow, sets(worked.follow), "Follow of {}", worked.name);
            assert_eq!(found.predict, sets(worked.predict), "Predict of {}", worked.name);
            let line = answer(&worked.case);
            assert!(line.ends_with(&format!(" {}", worked.verdict)), "{}: {line}", worked.name);
        }
    }

    #[test]
    fn the_answer_is_a_line_of_numbers() {
        // 2^63 + 2^3 is 9223372036854775816.
        let line = answer(&table_w());
        assert_eq!(line, "0 6 9223372036854775816 1 8 9223372036854775816 2 4 8 9223372036854775816 passes");
        let end = 1u64 << 63;
        assert_eq!(answer(&table_q()), format!("1 2 {end} 2 {end} passes"));
        assert_eq!(answer(&table_s()), format!("0 1 {end} 1 1 passes"));
    }

    #[test]
    fn a_case_is_its_line() {
        for worked in all() {
            assert_eq!(Case::read(&worked.case.line()), Some(worked.case));
        }
        assert_eq!(Case::read("1 0 0 1 1 1 0 0 0 0 0 0 0"), None, "a limit of 0");
        assert_eq!(Case::read("2 1 1 1 1 0 0 0 0 0 1 0"), None, "a result that names slot 1 of none");
        assert_eq!(Case::read("2 1 2 1 1 0 0 0 0 0 0 0"), None, "a nonterminal without production");
    }
}
