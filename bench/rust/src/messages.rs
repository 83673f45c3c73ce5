//! Good messages of any number of items, with the lists that they are judged by; and messages with bytes changed.

use crate::plain::{Kind, Lists};
use std::collections::BTreeSet;

/// A Tuesday.
pub const DAY: u32 = 20200310;

/// The bytes of the records with their endings.
const HEAD: usize = 176;
const ITEM: usize = 251;
const FOOT: usize = 26;

/// The clearing day and the lists.
#[derive(Clone)]
pub struct Given {
    pub day: u32,
    pub banks: Vec<u32>,
    pub known: Vec<u8>,
    pub barred: Vec<u32>,
}

impl Given {
    pub fn lists(&self) -> Lists<'_> {
        Lists {
            banks: &self.banks,
            known: &self.known,
            barred: &self.barred,
        }
    }

    /// The three digits of the bank in the heads of its good messages.
    pub fn own_code(&self) -> u32 {
        self.banks[0] / 100_000
    }

    /// The same with that bank barred.
    pub fn barring_own(self) -> Given {
        let barred = vec![self.own_code()];
        Given { barred, ..self }
    }

    /// The same with all others barred: 999 codes, and none that bars its good messages.
    pub fn barring_others(self) -> Given {
        let barred = (0..1_000).filter(|&code| code != self.own_code()).collect();
        Given { barred, ..self }
    }
}

/// Numbers that look random and are the same in each run.
pub struct Dice(u64);

impl Dice {
    pub fn new(seed: u64) -> Dice {
        Dice(seed.wrapping_mul(0x9e37_79b9_7f4a_7c15) | 1)
    }

    pub fn below(&mut self, n: u64) -> u64 {
        self.0 ^= self.0 << 13;
        self.0 ^= self.0 >> 7;
        self.0 ^= self.0 << 17;
        (self.0 >> 11) % n
    }

    pub fn pick<'a, T: ?Sized>(&mut self, of: &[&'a T]) -> &'a T {
        of[self.below(of.len() as u64) as usize]
    }
}

/// The digits and their check digit by annex 6.
pub fn with_check_digit(mut digits: String) -> String {
    let weights = [9, 7, 3, 1].into_iter().cycle();
    let sum: u32 = digits
        .bytes()
        .zip(weights)
        .map(|(b, weight)| u32::from(b - b'0') * weight)
        .sum();
    digits.push(char::from(b'0' + ((10 - sum % 10) % 10) as u8));
    digits
}

/// So many digits, the last one the check digit of annex 6.
pub fn checked(dice: &mut Dice, digits: usize) -> String {
    with_check_digit((1..digits).map(|_| char::from(b'0' + dice.below(10) as u8)).collect())
}

/// So many banks, a hundred identifiers, and no barred bank.
pub fn given(banks: usize) -> Given {
    let mut dice = Dice::new(banks as u64 + 1);
    let mut codes = BTreeSet::new();
    while codes.len() < banks {
        codes.insert(checked(&mut dice, 8).parse().unwrap());
    }
    let known = (0..100)
        .map(|k| format!("A12345676T00120200309{k:04}"))
        .collect::<String>();
    Given {
        day: DAY,
        banks: codes.into_iter().collect(),
        known: known.into_bytes(),
        barred: Vec::new(),
    }
}

const NAMES: [&[u8]; 6] = [
    b"Kovacs Anna",
    b"Nagy Janos",
    b"Szabo Istvanne",
    b"Toth Peter",
    b"Horvath Katalin Maria",
    b"Kiss Ede",
];
/// Names with letters of code page 852.
const ACCENTED: [&[u8]; 4] = [
    b"Sz\xfbcs B\x82la",
    b"Kov\xa0cs \x90va",
    b"T\xa2th G\x94rgy",
    b"F\x81l\x94p \xb5kos",
];
const STREETS: [&[u8]; 4] = [
    b"1011 Budapest, Fo u. 1.",
    b"4024 Debrecen, Piac u. 20.",
    b"6720 Szeged, Kossuth ter 3/b",
    b"9021 Gyor, Baross ut 14.",
];

/// The text at the front of a field of spaces.
fn put(out: &mut Vec<u8>, text: &[u8], width: usize) {
    out.extend_from_slice(text);
    out.resize(out.len() + width - text.len(), b' ');
}

/// An account of sixteen digits, or one time in three of eight digits and eight spaces.
pub fn account(dice: &mut Dice) -> String {
    let digits = if dice.below(3) == 0 { 8 } else { 16 };
    checked(dice, digits)
}

/// What differs between the kinds in a good message.
struct Wording {
    /// Positions 3-22 of the head.
    start: &'static str,
    /// Positions 59-66 of the head: a debit date, or no notification date.
    day: String,
    purpose: &'static str,
    name: &'static [u8],
    remark: &'static [u8],
    customer: &'static str,
    item_remark: &'static [u8],
}

fn wording(kind: Kind, day: u32) -> Wording {
    match kind {
        Kind::Atutal => Wording {
            start: "ATUTAL0A12345676T001",
            day: day.to_string(),
            purpose: "MUN",
            name: b"Minta Gepgyar Kft.",
            remark: b"marciusi munkaber",
            customer: "DOLGOZO",
            item_remark: b"munkaber 2020. februar",
        },
        Kind::Beszed => Wording {
            start: "BESZED0E12345676    ",
            day: " ".repeat(8),
            purpose: "VIL",
            name: b"Minta Aramszolgaltato Zrt.",
            remark: b"marciusi aramdij",
            customer: "FOGYASZTO",
            item_remark: b"aramdij 2020. februar",
        },
    }
}

/// Positions 9-16 of an item: the day after, or a due date from the day to ten days later, weekends too.
fn item_date(kind: Kind, day: u32, dice: &mut Dice) -> u32 {
    match kind {
        Kind::Atutal => day + 1,
        Kind::Beszed => day + dice.below(11) as u32,
    }
}

/// A good message: code 00, every item accepted. Of a hundred items so many have accented letters in their names.
pub fn good(given: &Given, kind: Kind, items: usize, accented: u64) -> Vec<u8> {
    let (day, words) = (given.day, wording(kind, given.day));
    let mut dice = Dice::new(items as u64);
    let mut out = Vec::with_capacity(204 + 251 * items);
    let mut sum = 0;
    out.extend_from_slice(format!("01{}{day}0001{:08}", words.start, given.banks[0]).as_bytes());
    put(&mut out, account(&mut dice).as_bytes(), 16);
    out.extend_from_slice(format!("{}{}", words.day, words.purpose).as_bytes());
    put(&mut out, words.name, 35);
    put(&mut out, words.remark, 70);
    out.extend_from_slice(b"\r\n");
    for place in 1..=items {
        let amount = 1 + dice.below(900_000);
        let bank = given.banks[dice.below(given.banks.len() as u64) as usize];
        let name = if dice.below(100) < accented {
            dice.pick(&ACCENTED)
        } else {
            dice.pick(&NAMES)
        };
        let date = item_date(kind, day, &mut dice);
        sum += amount;
        out.extend_from_slice(format!("02{place:06}{date}{amount:010}{bank:08}").as_bytes());
        put(&mut out, account(&mut dice).as_bytes(), 16);
        put(&mut out, format!("{}-{place:05}", words.customer).as_bytes(), 24);
        put(&mut out, name, 35);
        put(&mut out, dice.pick(&STREETS), 35);
        put(&mut out, name, 35);
        put(&mut out, words.item_remark, 70);
        out.extend_from_slice(b"\r\n");
    }
    out.extend_from_slice(format!("03{items:06}{sum:016}\r\n").as_bytes());
    out
}

/// Bytes 3-8 of the head are those of a kind or nearly so, or one of them is changed.
fn damage_kind(out: &mut [u8], dice: &mut Dice) {
    match dice.below(5) {
        0 => out[2..8].copy_from_slice(b"ATUTAL"),
        1 => out[2..8].copy_from_slice(b"BESZED"),
        2 => out[2..8].copy_from_slice(b"BESZEd"),
        _ => out[2 + dice.below(6) as usize] = b' ' + dice.below(95) as u8,
    }
}

/// One of the items.
fn any_item<'a>(out: &'a mut [u8], dice: &mut Dice) -> &'a mut [u8] {
    let items = (out.len() - HEAD - FOOT) / ITEM;
    let at = HEAD + ITEM * dice.below(items as u64) as usize;
    &mut out[at..at + ITEM]
}

/// Positions 9-16 of an item are a day of the month or none, near the clearing days and the eighth workday after them.
fn damage_date(out: &mut [u8], dice: &mut Dice) {
    let date = DAY - 10 + dice.below(34) as u32;
    any_item(out, dice)[8..16].copy_from_slice(date.to_string().as_bytes());
}

/// The account of an item is zeros, or zeros and spaces.
fn damage_account(out: &mut [u8], dice: &mut Dice) {
    let zeros: &[u8; 16] = *dice.pick(&[&b"0000000000000000", &b"00000000        "]);
    any_item(out, dice)[34..50].copy_from_slice(zeros);
}

/// One byte of the head's bank is a digit, or none.
fn damage_bank(out: &mut [u8], dice: &mut Dice) {
    let at = 34 + dice.below(8) as usize;
    out[at] = match dice.below(3) {
        0 => *dice.pick(&[&b' ', &b'A', &b'/', &b':']),
        _ => b'0' + dice.below(10) as u8,
    };
}

/// A barred list of a few codes, one time in four the head's own among them; one time in forty with a number behind them that mostly makes
/// it none.
pub fn barred(given: &Given, dice: &mut Dice) -> Vec<u32> {
    let mut codes: BTreeSet<u32> = (0..dice.below(4)).map(|_| dice.below(1_000) as u32).collect();
    if dice.below(4) == 0 {
        codes.insert(given.own_code());
    }
    let mut list: Vec<u32> = codes.into_iter().collect();
    if dice.below(40) == 0 {
        list.push(*dice.pick(&[&0, &999, &1_000, &u32::MAX]));
    }
    list
}

/// The good message with a few bytes changed, its kind, dates, accounts or bank among them, or with bytes lost or added at its end. Some byte
/// is left: without a piece no list is looked at.
pub fn damaged(message: &[u8], dice: &mut Dice) -> Vec<u8> {
    let mut out = message.to_vec();
    for _ in 0..dice.below(3) {
        let at = dice.below(out.len() as u64) as usize;
        out[at] = match dice.below(4) {
            0 => dice.below(256) as u8,
            1 => b'0' + dice.below(10) as u8,
            2 => b' ',
            _ => *dice.pick(&[&0x81, &0xa0, &0x7f, &b'@', &b'3', &b'A', &b'\r']),
        };
    }
    match dice.below(14) {
        0 => out.truncate(1 + dice.below(out.len() as u64 - 1) as usize),
        1 => out.push(b' '),
        2 => {
            // A field at random is filled with one byte.
            let at = dice.below(out.len() as u64 - 35) as usize;
            out[at..at + 35].fill(*dice.pick(&[&b' ', &b'0']));
        }
        3 => damage_kind(&mut out, dice),
        4..=5 => damage_date(&mut out, dice),
        6 => damage_account(&mut out, dice),
        7 => damage_bank(&mut out, dice),
        _ => {}
    }
    out
}
