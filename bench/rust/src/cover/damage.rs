//! FEDJELs and lists with something changed, so that each code and each refusal comes.

use super::{foot, item, Cover, ANSWERS, FOOT, HEAD, ITEM, REQUEST};
use crate::messages::{Dice, DAY};

/// One byte of the part is another: a digit, or any.
fn change_byte(part: &mut [u8], dice: &mut Dice) {
    let at = dice.below(part.len() as u64) as usize;
    part[at] = match dice.below(6) {
        0 => dice.below(256) as u8,
        1 => *dice.pick(&[&0x1f, &b' ', &b'~', &0x7f, &b'@', &b'\r', &0x82]),
        _ => b'0' + dice.below(10) as u8,
    };
}

/// One of the pieces of a length.
fn any<'a>(pieces: &'a mut [u8], length: usize, dice: &mut Dice) -> &'a mut [u8] {
    let at = dice.below((pieces.len() / length) as u64) as usize * length;
    &mut pieces[at..at + length]
}

/// An item is another answer to some request, or has a field changed; the foot mostly follows.
fn change_item(cover: &mut Cover, dice: &mut Dice) {
    let end = cover.message.len() - FOOT;
    let changed = any(&mut cover.message[HEAD..end], ITEM, dice);
    match dice.below(6) {
        0..=2 => {
            let answer = dice.pick(&ANSWERS);
            changed.copy_from_slice(&item(any(&mut cover.requests, REQUEST, dice), answer));
        }
        3 => change_byte(&mut changed[2..27], dice),
        4 => change_byte(&mut changed[27..67], dice),
        _ => changed[67] = *dice.pick(&[&b'0', &b'1', &b'5', &b'9', &b'2', &b' ']),
    }
    if dice.below(4) > 0 {
        let foot = foot(&cover.message[HEAD..end]);
        cover.message[end..].copy_from_slice(foot.as_bytes());
    }
}

/// Some of a count or a sum moves from one half of the foot to the other.
fn move_total(foot: &mut [u8], dice: &mut Dice) {
    let (a, b, width) = *dice.pick(&[&(2, 22, 4), &(6, 26, 16)]);
    let (from, to) = (foot[a + width - 1], foot[b + width - 1]);
    if from > b'0' && to < b'9' {
        (foot[a + width - 1], foot[b + width - 1]) = (from - 1, to + 1);
    }
}

/// A date of the head is one of the days about the clearing days.
fn change_date(head: &mut [u8], dice: &mut Dice) {
    let at = *dice.pick(&[&12, &12, &24]);
    let date = DAY - 10 + dice.below(24) as u32;
    head[at..at + 8].copy_from_slice(date.to_string().as_bytes());
}

/// A request comes twice, is lost, or has a byte changed.
fn change_list(list: &mut Vec<u8>, dice: &mut Dice) {
    match dice.below(5) {
        0 => list.extend_from_within(..REQUEST),
        1 => list.truncate(REQUEST * dice.below(3) as usize),
        2 => list.truncate(dice.below(list.len() as u64) as usize),
        _ => change_byte(any(list, REQUEST, dice), dice),
    }
}

/// The FEDJEL with items, dates, totals, bytes or the list changed, or with bytes lost or added.
pub fn damaged(cover: &Cover, dice: &mut Dice) -> Cover {
    let mut out = cover.clone();
    for _ in 0..dice.below(4) {
        change_item(&mut out, dice);
    }
    let end = out.message.len() - FOOT;
    match dice.below(12) {
        0 => move_total(&mut out.message[end..], dice),
        1 => change_date(&mut out.message[..HEAD], dice),
        2 => change_byte(&mut out.message[..HEAD], dice),
        3 => change_byte(&mut out.message[end..], dice),
        4 => change_byte(any(&mut out.message[HEAD..end], ITEM, dice), dice),
        5 => out.message.truncate(dice.below(out.message.len() as u64) as usize),
        6 => out.message.extend_from_slice(b"  "),
        7 => drop(out.message.drain(HEAD..HEAD + ITEM)),
        8 => change_list(&mut out.requests, dice),
        _ => {}
    }
    out
}
