//! Records: what is found in a head, an item, a foot (002 sections 1.1.1, 1.3.1, 1.2.1; 2.1.1, 2.3.1, 2.2.1). A code of 0 is none.

use super::dates::{day_number, days_to_eighth_workday, is_within};
use super::fields::*;
use super::Lists;

pub const HEAD: usize = 174;
pub const ITEM: usize = 249;
pub const FOOT: usize = 24;

/// The kinds of message, by the numbers that C has for them.
#[derive(Clone, Copy, Debug, PartialEq, Eq)]
pub enum Kind {
    Atutal = 0,
    Beszed = 1,
}

impl Kind {
    /// What a head's positions 3-8 tell: BESZED, or ATUTAL by anything else.
    fn of(r: &[u8; HEAD]) -> Kind {
        if &r[2..8] == b"BESZED" {
            Kind::Beszed
        } else {
            Kind::Atutal
        }
    }

    fn is_duplicate_code(self, b: u8) -> bool {
        b.is_ascii_digit() || (self == Kind::Atutal && b == b'@')
    }

    fn is_initiator(self, field: &[u8]) -> bool {
        is_initiator(field) || (self == Kind::Beszed && is_provider(field))
    }

    fn is_name(self, field: &[u8]) -> bool {
        match self {
            Kind::Atutal => !is_blank(field),
            Kind::Beszed => !is_blank_or_zero(field),
        }
    }
}

/// The day number that a field's digits stand for; none where they are no date.
fn date(field: &[u8]) -> Option<u32> {
    number(field).and_then(|date| day_number(date as u32))
}

pub struct Head {
    pub kind: Kind,
    /// Its bank is barred, so that no item is accepted. BESZED knows no bar.
    pub barred: bool,
    pub letter: bool,
    pub code: u8,
}

pub fn judge_head<const QUICK: bool>(r: &[u8; HEAD], e: u32, lists: Lists) -> Head {
    let kind = Kind::of(r);
    Head {
        kind,
        barred: kind == Kind::Atutal && is_barred(&r[34..42], lists.barred),
        letter: !is_text::<QUICK>(&r[69..174]),
        code: head_code::<QUICK>(r, kind, e, lists),
    }
}

/// The code of a head's first fault; e is the clearing day's number.
fn head_code<const QUICK: bool>(r: &[u8; HEAD], kind: Kind, e: u32, lists: Lists) -> u8 {
    if &r[0..2] != b"01" {
        return 41;
    }
    if kind == Kind::Atutal && &r[2..8] != b"ATUTAL" {
        return 9;
    }
    if !kind.is_duplicate_code(r[8]) {
        return 42;
    }
    if !kind.is_initiator(&r[9..22]) {
        return 43;
    }
    if lists.known.chunks_exact(25).any(|id| id == &r[9..34]) {
        return 29;
    }
    let Some(compiled) = date(&r[22..30]).filter(|&c| is_within(c, e, 15)) else {
        return 44;
    };
    if !is_digits(&r[30..34]) {
        return 2;
    }
    if !is_listed(&r[34..42], lists.banks) {
        return 1;
    }
    if !is_account(&r[42..58]) {
        return 45;
    }
    let is_debit_date = |debit: u32| debit >= e && is_within(compiled, debit, 10);
    if kind == Kind::Atutal && !date(&r[58..66]).is_some_and(is_debit_date) {
        return 7;
    }
    if !is_purpose(&r[66..69]) {
        return 48;
    }
    if !kind.is_name(&r[69..104]) {
        return 43;
    }
    0
}

pub struct Item {
    pub letter: bool,
    /// The code of its first fault that refuses the message.
    pub fault: u8,
    /// The code of its first fault that refuses the item.
    pub code: u8,
    pub amount: u64,
    pub zero: bool,
}

/// Where the head's bank is barred, 14 is the code of every item (002 section 1.3.1; 02, #105).
pub fn judge_item<const QUICK: bool>(
    r: &[u8; ITEM],
    kind: Kind,
    barred: bool,
    place: u64,
    e: u32,
    banks: &[u32],
) -> Item {
    let amount = number(&r[16..26]);
    let fault = if &r[0..2] != b"02" {
        46
    } else if amount.is_none() {
        34
    } else {
        0
    };
    Item {
        letter: !is_text::<QUICK>(&r[50..249]),
        fault,
        code: if barred {
            14
        } else {
            item_code::<QUICK>(r, kind, place, e, amount, banks)
        },
        amount: amount.unwrap_or(0),
        zero: is_zero_account(&r[34..50]),
    }
}

fn item_code<const QUICK: bool>(
    r: &[u8; ITEM],
    kind: Kind,
    place: u64,
    e: u32,
    amount: Option<u64>,
    banks: &[u32],
) -> u8 {
    match number(&r[2..8]) {
        None => return 39,
        Some(n) if n != place => return 32,
        Some(_) => {}
    }
    let is_due_date = |due: u32| is_within(e, due, days_to_eighth_workday(e));
    if kind == Kind::Beszed && !date(&r[8..16]).is_some_and(is_due_date) {
        33
    } else if amount == Some(0) {
        16
    } else if !is_listed(&r[26..34], banks) {
        37
    } else if !is_account(&r[34..50]) {
        61
    } else if is_blank_or_zero(&r[50..74]) {
        63
    } else if is_blank_or_zero(&r[144..179]) {
        62
    } else {
        0
    }
}

pub fn judge_foot(r: &[u8; FOOT], count: u64, sum: u64) -> u8 {
    if number(&r[2..8]) != Some(count) {
        18
    } else if number(&r[8..24]) != Some(sum) {
        19
    } else {
        0
    }
}
