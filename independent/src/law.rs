//! The law of reading, tried on random tables that pass and random lists of calls. Before every call it is compared with
//! all derivations:
//!
//! a. closing now closes exactly when the granted words have a derivation within the limits, with its trail and value,
//!    and these words have no second derivation, within the limits or beyond;
//! b. the trail is that of the one open derivation of the granted words within the limits, and there is no second;
//! c. a word offered now is denied exactly when the granted words and this one have no open derivation within the
//!    limits; and a denial leaves the reading as it was.
//!
//! The limits are small ones, so that they are met often. `beyond` says how far the search for other derivations goes.

use crate::deriver::{Derivation, Deriver};
use crate::domain::{Domain, Value};
use crate::random::{passing_case, Random};
use crate::reader::{Limits, Reader, Refusal};
use crate::table::{Case, Item, Word, END};

/// How often each thing happened.
#[derive(Default)]
pub struct Counts {
    tables: usize,
    calls: usize,
    grants: usize,
    closings: usize,
    restarts: usize,
    /// Denied calls of the lists, by refusal.
    denials: [usize; 25],
    /// Words that were offered to see whether they would be denied, and closings tried so.
    trials: usize,
    /// Readings whose words had a derivation, open or finished, beyond the limits only.
    beyond: usize,
}

/// Tries the law; gives the counts, or a description of the first case that breaks it.
pub fn try_law(seed: u64, tables: usize) -> Result<Counts, String> {
    let mut random = Random(seed);
    let mut counts = Counts::default();
    for _ in 0..tables {
        let case = lively_case(&mut random);
        let limits = Limits { sight: 1 + random.below(5), open: 1 + random.below(6), trail: 1 + random.below(10) };
        counts.tables += 1;
        let mut calls = Vec::new();
        try_table(&mut random, &mut counts, &case, limits, &mut calls).map_err(|what| {
            let calls = calls.join(", ");
            format!("{what}\ntable:  {}\nlimits: {limits:?}\ncalls:  {calls}", case.line())
        })?;
    }
    Ok(counts)
}

/// How far the search goes for derivations that break the limits.
fn beyond(limits: Limits) -> Limits {
    Limits { sight: limits.sight + 5, open: limits.open + 5, trail: limits.trail + 15 }
}

/// A table that passes, and mostly one in which some word can be read.
fn lively_case(random: &mut Random) -> Case {
    loop {
        let case = passing_case(random);
        let deriver = Deriver { case: &case, bounds: beyond(Limits { sight: 1, open: 1, trail: 1 }) };
        if random.percent(10) || alphabet(random, &case).iter().any(|&word| !deriver.open(&[word]).is_empty()) {
            return case;
        }
    }
}

fn try_table(
    random: &mut Random,
    counts: &mut Counts,
    case: &Case,
    limits: Limits,
    calls: &mut Vec<String>,
) -> Result<(), String> {
    let deriver = Deriver { case, bounds: beyond(limits) };
    let alphabet = alphabet(random, case);
    let kinds: Vec<Word> = alphabet.iter().copied().filter(|word| word.0 < case.kinds).collect();
    let mut reader = Reader::begin(case, limits);
    let mut granted: Vec<Word> = Vec::new();
    let mut closed = false;
    for _ in 0..12 {
        let mut takes = Vec::new();
        if !closed {
            takes = compare(counts, &deriver, &mut reader, limits, &granted, &alphabet)?;
        }
        counts.calls += 1;
        let chance = random.below(100);
        if closed || chance < 6 {
            calls.push("restart".to_string());
            reader.restart();
            granted.clear();
            closed = false;
            counts.restarts += 1;
        } else if chance < 20 {
            calls.push("close".to_string());
            let outcome = reader.close();
            closed = outcome.is_ok();
            counts.closings += closed as usize;
            count_denial(counts, outcome);
        } else {
            // Mostly a word that goes on, so that readings become long; now and then one that is no word at all.
            let word = random.one(match chance {
                20..=74 if !takes.is_empty() => &takes,
                20..=94 => &kinds,
                _ => &alphabet,
            });
            calls.push(format!("offer {} {}", word.0, word.1));
            let outcome = reader.offer(word);
            if outcome.is_ok() {
                granted.push(word);
                counts.grants += 1;
            }
            count_denial(counts, outcome);
        }
    }
    Ok(())
}

fn count_denial<T>(counts: &mut Counts, outcome: Result<T, Refusal>) {
    if let Err(refusal) = outcome {
        counts.denials[refusal as usize] += 1;
    }
}

/// Words to offer: the kinds in use and one beside them, the first that is no kind, the end mark and kinds beyond it,
/// each with several values.
fn alphabet(random: &mut Random, case: &Case) -> Vec<Word> {
    let mut kinds = vec![random.below(case.kinds), case.kinds, END, 64, 255];
    for production in &case.productions {
        kinds.extend(production.items.iter().filter_map(|item| if let Item::Kind(kind) = item { Some(*kind) } else { None }));
    }
    kinds.sort();
    kinds.dedup();
    let mut values: Vec<Value> = match &case.domain {
        Domain::Minutes { limit, cuts } => [&[0, *limit, 65535][..], cuts].concat(),
        Domain::Posts { .. } => vec![0, 1, 2, 5, 63],
    };
    while values.len() > 3 {
        values.swap_remove(random.below(values.len()));
    }
    kinds.iter().flat_map(|&kind| values.iter().map(move |&value| (kind, value))).collect()
}

/// Compares the reading with all derivations of the granted words. Gives the words that it would take next.
fn compare(
    counts: &mut Counts,
    deriver: &Deriver,
    reader: &mut Reader,
    limits: Limits,
    granted: &[Word],
    alphabet: &[Word],
) -> Result<Vec<Word>, String> {
    let now = reader.state.clone();
    let open = deriver.open(granted);
    // b
    let one = only(&open, limits)?.ok_or("no open derivation of the granted words")?;
    if one.trail != now.trail {
        return Err(format!("the trail is {:?}, that of the open derivation {:?}", now.trail, one.trail));
    }
    // a
    counts.trials += 1;
    let finished = deriver.finished(&open);
    let expected = only(&finished, limits)?;
    counts.beyond += (expected.is_none() && !finished.is_empty()) as usize;
    let expected = expected.map(|one| (one.trail.clone(), one.value()));
    let found = reader.close().ok().map(|value| (reader.state.trail.clone(), Some(value)));
    if found != expected {
        return Err(format!("closing gives {found:?}, the derivation {expected:?}"));
    }
    if found.is_none() && reader.state != now {
        return Err("a denied closing altered the reading".to_string());
    }
    reader.state = now.clone();
    // c
    let mut takes = Vec::new();
    for &word in alphabet {
        counts.trials += 1;
        let further = deriver.open_further(&open, word);
        let expected = only(&further, limits)?;
        counts.beyond += (expected.is_none() && !further.is_empty()) as usize;
        let outcome = reader.offer(word);
        if outcome.is_ok() != expected.is_some() {
            return Err(format!("offering {word:?} gives {outcome:?}, derivations {further:?}"));
        }
        match outcome {
            Ok(()) => takes.push(word),
            Err(_) if reader.state != now => return Err(format!("the denied {word:?} altered the reading")),
            Err(_) => {}
        }
        reader.state = now.clone();
    }
    Ok(takes)
}

/// The one derivation, if it lies within the limits. There must be no second one, within the limits or beyond.
fn only(derivations: &[Derivation], limits: Limits) -> Result<Option<&Derivation>, String> {
    match derivations {
        [] => Ok(None),
        [one] => Ok(one.within(limits).then_some(one)),
        [one, two, ..] => Err(format!("two derivations, {:?} and {:?}", one.trail, two.trail)),
    }
}

impl Counts {
    pub fn print(&self) {
        println!("tables {}, calls {}, words granted {}", self.tables, self.calls, self.grants);
        println!("closed {}, restarted {}", self.closings, self.restarts);
        for refusal in 17..=24 {
            println!("denied by {refusal}: {}", self.denials[refusal]);
        }
        println!("words and closings tried besides {}, with a derivation only beyond the limits {}", self.trials, self.beyond);
    }
}
