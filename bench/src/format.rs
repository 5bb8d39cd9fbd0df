//! A case as bytes. Its numbers stand in the order of the decimal form, each in one byte, save for these, high byte
//! first: LIMIT and every cut have two bytes, SIGHT has eight.
//!
//!   domain      1 LIMIT COUNT cut*  or  2 M  or  3
//!   counts      N T P
//!   production  LEFT TEST SIGHT RULE SLOT SLOT COUNT item*
//!   item        1 KIND  or  2 NONTERMINAL RULE SLOT SLOT  or  3 CHECK SLOT SLOT
//!
//! The sets do not depend on rules, slots and checks, so that what is read here leaves them out.

#[derive(Clone, Copy)]
pub enum Item {
    Kind(u8),
    Nonterminal(u8),
    Check,
}

pub struct Production {
    pub left: u8,
    pub test: u8,
    pub sight: u64,
    items: [Item; 8],
    count: usize,
}

impl Production {
    pub fn items(&self) -> &[Item] {
        &self.items[..self.count]
    }
}

#[derive(Clone, Copy)]
pub enum Domain {
    // with the count of classes
    Minutes(usize),
    Posts(usize),
    Sums,
}

pub struct Case {
    pub domain: Domain,
    pub nonterminals: usize,
    pub productions: Vec<Production>,
}

/// The bytes that are left.
struct Bytes<'a>(&'a [u8]);

impl Bytes<'_> {
    fn byte(&mut self) -> Option<u8> {
        let (&byte, rest) = self.0.split_first()?;
        self.0 = rest;
        Some(byte)
    }

    fn skip(&mut self, count: usize) -> Option<()> {
        self.0 = self.0.get(count..)?;
        Some(())
    }

    fn long(&mut self) -> Option<u64> {
        let (long, rest) = self.0.split_first_chunk::<8>()?;
        self.0 = rest;
        Some(u64::from_be_bytes(*long))
    }

    fn production(&mut self) -> Option<Production> {
        let (left, test, sight) = (self.byte()?, self.byte()?, self.long()?);
        self.skip(3)?;
        let count = self.byte()? as usize;
        let mut items = [Item::Check; 8];
        for item in items.get_mut(..count)? {
            *item = match self.byte()? {
                1 => Item::Kind(self.byte()?),
                2 => {
                    let nonterminal = self.byte()?;
                    self.skip(3)?;
                    Item::Nonterminal(nonterminal)
                }
                3 => {
                    self.skip(3)?;
                    Item::Check
                }
                _ => return None,
            };
        }
        Some(Production { left, test, sight, items, count })
    }
}

/// Reads a case. Tables are taken to keep the rules of tables.
pub fn read(bytes: &[u8]) -> Option<Case> {
    let mut bytes = Bytes(bytes);
    let domain = match bytes.byte()? {
        1 => {
            bytes.skip(2)?;
            let cuts = bytes.byte()? as usize;
            bytes.skip(2 * cuts)?;
            Domain::Minutes(cuts + 1)
        }
        2 => Domain::Posts(1 << bytes.byte()?),
        3 => Domain::Sums,
        _ => return None,
    };
    let nonterminals = bytes.byte()? as usize;
    bytes.skip(1)?;
    let count = bytes.byte()? as usize;
    let mut productions = Vec::with_capacity(count);
    for _ in 0..count {
        productions.push(bytes.production()?);
    }
    bytes.0.is_empty().then_some(Case { domain, nonterminals, productions })
}

/// The bytes of a case that is given in decimal numbers.
pub fn from_decimal(line: &str) -> Option<Vec<u8>> {
    let mut numbers = line.split(' ').map(|word| word.parse::<u64>().ok());
    let mut bytes = Vec::new();
    // Moves one number, in so many bytes.
    let mut put = |size: usize| {
        let number = numbers.next()??;
        bytes.extend_from_slice(&number.to_be_bytes()[8 - size..]);
        Some(number)
    };
    match put(1)? {
        1 => {
            put(2)?;
            for _ in 0..put(1)? {
                put(2)?;
            }
        }
        2 => drop(put(1)?),
        _ => {}
    }
    put(1)?;
    put(1)?;
    for _ in 0..put(1)? {
        for size in [1, 1, 8, 1, 1, 1] {
            put(size)?;
        }
        for _ in 0..put(1)? {
            let rest = match put(1)? {
                1 => 1,
                2 => 4,
                _ => 3,
            };
            for _ in 0..rest {
                put(1)?;
            }
        }
    }
    Some(bytes)
}
