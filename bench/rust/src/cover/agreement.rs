//! Both judges give the same answers on FEDJELs: on those that are measured, at the edges of 02, and on damaged ones.

use super::damage::damaged;
use super::{cover, good, item, Cover, Order, DAY, FOOT, HEAD, ITEM, REQUEST};
use crate::messages::Dice;
use crate::plain::{self, Asked, Particulars, FEDSTA};
use crate::proved;

/// What numbers hold that no call has written.
const UNTOUCHED: [u64; 2] = [u64::MAX; 2];

/// The same answer and the same table: the refusal's number or 0, the numbers, and the table.
fn same_verdict(cover: &Cover, room: usize) -> (u32, [u64; 2], Vec<u8>) {
    let (mut a, mut b, mut numbers) = (vec![255; room], vec![255; room], UNTOUCHED);
    let refusal = proved::judge_fedjel(cover, &mut a, &mut numbers);
    let answer = match plain::judge_fedjel(cover.day, &cover.requests, &cover.message, &mut b) {
        Ok(judged) => (0, [judged.code.into(), judged.items as u64]),
        Err(refusal) => (refusal as u32, UNTOUCHED),
    };
    assert_eq!((refusal, numbers), answer);
    assert_eq!(a, b);
    (refusal, numbers, a)
}

/// The same FEDSTA, and the rest of the output untouched: the refusal's number or 0, and the output.
fn same_fedsta(cover: &Cover, asked: &Asked, room: usize) -> (u32, Vec<u8>) {
    let (mut a, mut b) = (vec![1; room], vec![1; room]);
    let refusal = proved::write_fedsta(cover, asked, &mut a);
    let answer = plain::write_fedsta(cover.day, &cover.requests, &cover.message, asked, &mut b);
    assert_eq!(refusal, answer.map_or_else(|refusal| refusal as u32, |()| 0));
    assert_eq!(a, b);
    (refusal, a)
}

/// The FEDSTA that is asked for where nothing else is said.
pub fn asked(id: &[u8; 25]) -> Asked<'_> {
    Asked {
        id,
        cover: true,
        particulars: Particulars {
            duplicate: b'0',
            number: 7,
            time: 83_000,
        },
        count: 3,
    }
}

/// The FEDJELs that are measured are good, and both judges say so.
fn check_measured(cover: &Cover) {
    let items = cover.requests.len() / REQUEST;
    let (refusal, numbers, table) = same_verdict(cover, items);
    assert_eq!((refusal, numbers), (0, [0, items as u64]));
    assert!(table.iter().all(|&code| code == 0));
}

/// A FEDJEL of one item that answers rightly: its code and table, and its FEDSTA byte by byte.
fn check_example() {
    let request = b"A12345676T0012020030100011177301611111018000000000000000000012345";
    let example = cover(DAY, request.to_vec(), item(request, b"021"));
    assert_eq!(same_verdict(&example, 2), (0, [0, 1], vec![0, 255]));
    let (refusal, out) = same_fedsta(&example, &asked(request[..25].try_into().unwrap()), FEDSTA + 1);
    let head = b"01FEDSTA0A12345676T00120200301000120200310000708300000\r\n";
    let foot = b"0300000300000000000123450000000000000000000000\r\n";
    assert_eq!((refusal, out), (0, [&head[..], foot, &[1]].concat()));
}

/// A sum past 64 bits isn't taken for what is left of it there: 19, where the foot has what is left (02, #103).
fn check_wide_sums() {
    const MOST: u64 = 9_999_999_999_999_999;
    let mut wide = good(DAY, 1_845, Order::Same);
    let items = wide.message.len() - FOOT;
    for request in wide.requests.chunks_exact_mut(REQUEST) {
        request[49..].fill(b'9');
    }
    for item in wide.message[HEAD..items].chunks_exact_mut(ITEM) {
        item[0..2].copy_from_slice(b"02");
        item[51..67].fill(b'9');
        item[67] = b'1';
    }
    let left = MOST.wrapping_mul(1_845);
    assert!(left <= MOST);
    wide.message[items..].copy_from_slice(format!("041845{left:016}{:020}\r\n", 0).as_bytes());
    let (refusal, numbers, _) = same_verdict(&wide, 1_845);
    assert_eq!((refusal, numbers), (0, [19, 1_845]));
}

/// Both judges agree on 100,000 damaged FEDJELs of six items, for a clearing day of each weekday; and so do the FEDSTAs.
fn check_damaged() {
    let days = [0, 1, 2, 3, 4, 5, 6].map(|k| good(DAY + k, 6, Order::Shuffled));
    let mut dice = Dice::new(1);
    let (mut met, mut met_in_items, mut refused) = ([0; 256], [0; 256], [0; 256]);
    for cover in days.iter().cycle().take(100_000) {
        let mut cover = damaged(cover, &mut dice);
        if dice.below(100) == 0 {
            cover.day = 20_200_230;
        }
        let (refusal, numbers, table) = same_verdict(&cover, 5 + dice.below(20) as usize);
        refused[refusal as usize] += 1;
        if refusal == 0 {
            met[numbers[0] as usize] += 1;
            table.iter().for_each(|&code| met_in_items[code as usize] += 1);
        }
        let id = format!("A12345676T00120200301{:04}", dice.below(7))
            .into_bytes()
            .try_into()
            .unwrap();
        let mut asked = asked(&id);
        asked.cover = dice.below(4) > 0;
        asked.count = dice.below(1_050_000) as u32;
        asked.particulars.time = dice.below(260_000) as u32;
        let (refusal, _) = same_fedsta(&cover, &asked, FEDSTA - 1 + dice.below(20) as usize);
        refused[refusal as usize] += 1;
    }
    // 255 is what a byte of the table is before an item is judged, and no code.
    let all = |met: [usize; 256]| (0..255).filter(|&code| met[code] > 0).collect::<Vec<_>>();
    let (codes, item_codes, refusals) = (all(met), all(met_in_items), all(refused));
    println!(
        "agreed on 100,000 damaged FEDJELs, with codes {codes:?}, of items {item_codes:?}, and outcomes {refusals:?}"
    );
}

/// The FEDJELs that are measured, one of one item, a wide sum, and 100,000 damaged ones with a FEDSTA each.
pub fn check(measured: &[Cover]) {
    measured.iter().for_each(check_measured);
    check_example();
    check_wide_sums();
    check_damaged();
}
