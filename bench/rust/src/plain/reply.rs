//! The reply to a message: a STATUS, into the lent output (01, Calls and their answers; 002 sections 3.1 to 3.3).

use super::records::{HEAD, ITEM};
use super::session::{judge, Closing};
use super::{Lists, Refusal};

pub struct Particulars {
    pub duplicate: u8,
    pub number: u32,
    pub time: u32,
}

impl Particulars {
    pub(super) fn are_right(&self) -> bool {
        let (hours, minutes, seconds) = (self.time / 10_000, self.time / 100 % 100, self.time % 100);
        matches!(self.duplicate, b'0' | b'@') && self.number <= 9999 && hours < 24 && minutes < 60 && seconds < 60
    }
}

/// The number with leading zeros, over the whole field.
pub(super) fn put_number(field: &mut [u8], mut n: u64) {
    for digit in field.iter_mut().rev() {
        *digit = b'0' + (n % 10) as u8;
        n /= 10;
    }
}

fn put_head<const QUICK: bool>(out: &mut [u8], day: u32, address: &[u8], particulars: &Particulars, code: u8) {
    out[0..8].copy_from_slice(b"01STATUS");
    out[8] = particulars.duplicate;
    out[9..34].copy_from_slice(address);
    put_number(&mut out[34..42], day.into());
    put_number(&mut out[42..46], particulars.number.into());
    put_number(&mut out[46..52], particulars.time.into());
    put_number(&mut out[52..54], code.into());
    out[54..56].copy_from_slice(b"\r\n");
}

fn put_reference<const QUICK: bool>(out: &mut [u8], place: u64, code: u8, item: &[u8]) {
    out[0..2].copy_from_slice(b"02");
    put_number(&mut out[2..8], place);
    put_number(&mut out[8..10], code.into());
    out[10..39].fill(b' ');
    out[39..63].copy_from_slice(&item[50..74]);
    out[63..65].copy_from_slice(b"\r\n");
}

fn put_foot<const QUICK: bool>(out: &mut [u8], closing: &Closing) {
    out[0..2].copy_from_slice(b"03");
    put_number(&mut out[2..8], closing.accepted.count);
    put_number(&mut out[8..24], closing.accepted.sum);
    put_number(&mut out[24..30], closing.refused.count);
    put_number(&mut out[30..46], closing.refused.sum);
    out[46..48].copy_from_slice(b"\r\n");
}

/// The reply to the whole message goes to the front of the output: refusals 1, 2, 3, 15, 6, 7, 8, 9. The answer is its length.
pub fn reply<const QUICK: bool>(
    day: u32,
    lists: Lists,
    message: &[u8],
    particulars: &Particulars,
    out: &mut [u8],
) -> Result<usize, Refusal> {
    let mut codes = [0; 10_000];
    let closing = judge::<QUICK>(day, lists, &mut codes, message)?;
    let address = message.get(9..34).ok_or(Refusal::Address)?;
    if !address.iter().all(|b| matches!(b, b' '..=b'~')) {
        return Err(Refusal::Address);
    }
    if !particulars.are_right() {
        return Err(Refusal::Particulars);
    }
    let references = (closing.accepted.count + closing.refused.count) as usize;
    let length = 104 + references * 65;
    let out = out.get_mut(..length).ok_or(Refusal::Room)?;
    let (head, rest) = out.split_at_mut(56);
    let (middle, foot) = rest.split_at_mut(references * 65);
    put_head::<QUICK>(head, day, address, particulars, closing.code);
    let items = message.get(HEAD + 2..).unwrap_or_default().chunks_exact(ITEM + 2);
    for (((place, out), code), item) in (1..).zip(middle.chunks_exact_mut(65)).zip(&codes).zip(items) {
        put_reference::<QUICK>(out, place, *code, item);
    }
    put_foot::<QUICK>(foot, &closing);
    Ok(length)
}
