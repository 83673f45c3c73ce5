//! The judge by pieces: whole records straight out of the piece, the record begun in a buffer (01, Calls and their answers).

use super::dates::day_number;
use super::records::{judge_foot, judge_head, judge_item, Kind, FOOT, HEAD, ITEM};
use super::{Lists, Refusal};

const MOST: usize = 10_000;

/// How many items, and the sum of their amounts.
#[derive(Clone, Copy, Debug, Default, PartialEq, Eq)]
pub struct Totals {
    pub count: u64,
    pub sum: u64,
}

impl Totals {
    fn add(&mut self, amount: u64) {
        self.count += 1;
        self.sum += amount;
    }
}

#[derive(Clone, Copy, Debug, PartialEq, Eq)]
pub struct Closing {
    pub kind: Kind,
    pub code: u8,
    pub accepted: Totals,
    pub refused: Totals,
    pub zeros: u64,
    pub id: [u8; 25],
}

#[derive(Clone, Copy, PartialEq, Eq)]
enum Phase {
    Head,
    Items,
    Done,
    Broken,
    Overflow,
}

struct Tally<const QUICK: bool> {
    phase: Phase,
    /// ATUTAL until a head with its right ending was read.
    kind: Kind,
    /// Whether the head's bank is barred, as the list said when the head was read.
    barred: bool,
    letter: bool,
    code: u8,
    accepted: Totals,
    refused: Totals,
    zeros: u64,
    id: [u8; 25],
}

impl<const QUICK: bool> Tally<QUICK> {
    fn is_open(&self) -> bool {
        matches!(self.phase, Phase::Head | Phase::Items)
    }

    /// How many bytes the record that begins so has with its ending, where that shows yet.
    fn size(&self, begun: &[u8]) -> Option<usize> {
        match (self.phase, begun) {
            (Phase::Head, _) => Some(HEAD + 2),
            (_, [b'0', b'3', ..]) => Some(FOOT + 2),
            (_, [_, _, ..]) => Some(ITEM + 2),
            _ => None,
        }
    }

    fn fault(&mut self, code: u8) {
        if self.code == 0 {
            self.code = code;
        }
    }

    /// A record of its whole size.
    fn record(&mut self, record: &[u8], e: u32, lists: Lists, table: &mut [u8]) {
        let Some(record) = record.strip_suffix(b"\r\n") else {
            self.phase = Phase::Broken;
            return;
        };
        if self.phase == Phase::Head {
            self.head(record.try_into().unwrap(), e, lists);
        } else if let Ok(foot) = record.try_into() {
            self.foot(foot);
        } else {
            self.item(record.try_into().unwrap(), e, lists.banks, table);
        }
    }

    fn head(&mut self, record: &[u8; HEAD], e: u32, lists: Lists) {
        let found = judge_head::<QUICK>(record, e, lists);
        self.phase = Phase::Items;
        self.kind = found.kind;
        self.barred = found.barred;
        self.letter = found.letter;
        self.code = found.code;
        self.id.copy_from_slice(&record[9..34]);
    }

    fn item(&mut self, record: &[u8; ITEM], e: u32, banks: &[u32], table: &mut [u8]) {
        let before = self.accepted.count + self.refused.count;
        let Some(place) = table.get_mut(before as usize) else {
            self.phase = Phase::Overflow;
            return;
        };
        let found = judge_item::<QUICK>(record, self.kind, self.barred, before + 1, e, banks);
        *place = found.code;
        self.letter |= found.letter;
        self.fault(found.fault);
        if found.code == 0 {
            self.accepted.add(found.amount);
            self.zeros += u64::from(found.zero);
        } else {
            self.refused.add(found.amount);
        }
    }

    fn foot(&mut self, record: &[u8; FOOT]) {
        let items = self.accepted.count + self.refused.count;
        if items == 0 {
            self.phase = Phase::Broken;
            return;
        }
        self.phase = Phase::Done;
        self.fault(judge_foot(record, items, self.accepted.sum + self.refused.sum));
    }
}

pub struct Session<const QUICK: bool> {
    e: u32,
    room: usize,
    tally: Tally<QUICK>,
    begun: Vec<u8>,
}

impl<const QUICK: bool> Session<QUICK> {
    /// Refusals 1, 4.
    pub fn open(day: u32, table: &[u8]) -> Result<Self, Refusal> {
        let e = day_number(day).ok_or(Refusal::NotADay)?;
        if table.len() > MOST {
            return Err(Refusal::Table);
        }
        Ok(Session {
            e,
            room: table.len(),
            tally: Tally {
                phase: Phase::Head,
                kind: Kind::Atutal,
                barred: false,
                letter: false,
                code: 0,
                accepted: Totals::default(),
                refused: Totals::default(),
                zeros: 0,
                id: [b' '; 25],
            },
            begun: Vec::with_capacity(ITEM + 2),
        })
    }

    /// Refusals 2, 3, 15, 4.
    pub fn take(&mut self, piece: &[u8], lists: Lists, table: &mut [u8]) -> Result<(), Refusal> {
        lists.check()?;
        if table.len() != self.room {
            return Err(Refusal::Table);
        }
        let mut rest = self.complete(piece, lists, table);
        while self.tally.is_open() {
            match self.tally.size(rest) {
                Some(size) if size <= rest.len() => {
                    let (record, after) = rest.split_at(size);
                    self.tally.record(record, self.e, lists, table);
                    rest = after;
                }
                _ => break,
            }
        }
        if self.tally.is_open() {
            self.begun.extend_from_slice(rest);
        } else if self.tally.phase == Phase::Done && !rest.is_empty() {
            self.tally.phase = Phase::Broken;
        }
        Ok(())
    }

    /// Completes the record begun as far as the piece goes, and gives what is left of the piece.
    fn complete<'a>(&mut self, mut rest: &'a [u8], lists: Lists, table: &mut [u8]) -> &'a [u8] {
        while !self.begun.is_empty() && !rest.is_empty() {
            let size = self.tally.size(&self.begun);
            let missing = size.map_or(1, |size| size - self.begun.len());
            let (more, after) = rest.split_at(missing.min(rest.len()));
            self.begun.extend_from_slice(more);
            rest = after;
            if size == Some(self.begun.len()) {
                self.tally.record(&self.begun, self.e, lists, table);
                self.begun.clear();
            }
        }
        rest
    }

    /// Refusal 6.
    pub fn close(self) -> Result<Closing, Refusal> {
        let tally = self.tally;
        let code = match tally.phase {
            Phase::Overflow => return Err(Refusal::Overflow),
            Phase::Done if tally.letter => 36,
            Phase::Done => tally.code,
            _ => 26,
        };
        let good = code == 0;
        Ok(Closing {
            kind: tally.kind,
            code,
            accepted: if good { tally.accepted } else { Totals::default() },
            refused: if good { tally.refused } else { Totals::default() },
            zeros: if good { tally.zeros } else { 0 },
            id: tally.id,
        })
    }
}

/// A whole message: refusals 1, 4, 2, 3, 15, 6.
pub fn judge<const QUICK: bool>(day: u32, lists: Lists, table: &mut [u8], message: &[u8]) -> Result<Closing, Refusal> {
    let mut session = Session::<QUICK>::open(day, table)?;
    session.take(message, lists, table)?;
    session.close()
}
