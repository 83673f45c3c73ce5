//! The proved judge and both plain ones give the same answers: on the messages that are measured, and on damaged ones.

use crate::messages::{barred, damaged, given, good, Dice, Given, DAY};
use crate::plain::{self, Closing, Kind, Particulars, Refusal, Session};
use crate::proved::{self, Numbers};

/// The refusal's number or 0 and the numbers of closing, and the table.
type Verdict = ((u32, Numbers), Vec<u8>);

fn numbers(answer: Result<Closing, Refusal>) -> (u32, Numbers) {
    match answer {
        Err(refusal) => (refusal as u32, Numbers::default()),
        Ok(c) => {
            let (a, r) = (c.accepted, c.refused);
            (
                0,
                [c.code.into(), a.count, a.sum, r.count, r.sum, c.zeros, c.kind as u64],
            )
        }
    }
}

fn plain_by<const QUICK: bool>(
    size: usize,
    given: &Given,
    table: &mut [u8],
    message: &[u8],
) -> Result<Closing, Refusal> {
    let mut session = Session::<QUICK>::open(given.day, table)?;
    for piece in message.chunks(size) {
        session.take(piece, given.lists(), table)?;
    }
    session.close()
}

/// A plain judge's answer and table, whole and by pieces.
fn plain_verdicts<const QUICK: bool>(given: &Given, message: &[u8], room: usize, size: usize) -> [Verdict; 2] {
    let (mut a, mut b) = (vec![255; room], vec![255; room]);
    let whole = numbers(plain::judge::<QUICK>(given.day, given.lists(), &mut a, message));
    let by_pieces = numbers(plain_by::<QUICK>(size, given, &mut b, message));
    [(whole, a), (by_pieces, b)]
}

/// The same answer and the same table, whole and by pieces.
fn same_verdict(given: &Given, message: &[u8], room: usize, size: usize) -> Verdict {
    let (mut a, mut b) = (vec![255; room], vec![255; room]);
    let whole = proved::judge(given, &mut a, message);
    let by_pieces = proved::judge_by(size, given, &mut b, message);
    let verdicts = [(whole, a), (by_pieces, b)];
    assert_eq!(verdicts, plain_verdicts::<false>(given, message, room, size));
    assert_eq!(verdicts, plain_verdicts::<true>(given, message, room, size));
    let [whole, by_pieces] = verdicts;
    assert_eq!(whole, by_pieces);
    whole
}

/// A plain judge's reply: the refusal's number or 0, its length, and the output.
fn plain_reply<const QUICK: bool>(given: &Given, message: &[u8], p: &Particulars, room: usize) -> (u32, u64, Vec<u8>) {
    let mut out = vec![1; room];
    match plain::reply::<QUICK>(given.day, given.lists(), message, p, &mut out) {
        Ok(length) => (0, length as u64, out),
        Err(refusal) => (refusal as u32, 0, out),
    }
}

/// The same reply, and the rest of the output untouched.
fn same_reply(given: &Given, message: &[u8], time: u32, room: usize) {
    let mut out = vec![1; room];
    let p = Particulars {
        duplicate: b'@',
        number: 7,
        time,
    };
    let (refusal, length) = proved::reply(given, message, p.duplicate, p.number, p.time, &mut out);
    let reply = (refusal, length, out);
    assert_eq!(reply, plain_reply::<false>(given, message, &p, room));
    assert_eq!(reply, plain_reply::<true>(given, message, &p, room));
}

/// The empty message is 26, a known identifier 29, and refusals 1 to 4 and 15 are the same, in their order: a day that is none, lists that
/// are wrong, a table too long.
fn check_given(small: &[u8]) {
    let usual = given(10);
    assert_eq!(same_verdict(&usual, &[], 10, 100).0, (0, [26, 0, 0, 0, 0, 0, 0]));
    let with = |day: u32, banks: &[u32], known: &[u8], barred: &[u32]| Given {
        day,
        banks: banks.to_vec(),
        known: known.to_vec(),
        barred: barred.to_vec(),
    };
    let (banks, known, none) = (&usual.banks[..], &usual.known[..], &[][..]);
    let repeated = [known, &small[9..34]].concat();
    let cases = [
        (with(DAY, banks, &repeated, none), 10, (0, 29)),
        (with(20190229, &[2, 1], &known[1..], &[1_000]), 10_001, (1, 0)),
        (with(DAY, &[2, 1], &known[1..], &[1_000]), 10_001, (4, 0)),
        (with(DAY, &[2, 1], &known[1..], &[1_000]), 10, (2, 0)),
        (with(DAY, banks, &known[1..], &[1_000]), 10, (3, 0)),
        (with(DAY, banks, known, &[1_000]), 2, (15, 0)),
        (with(DAY, banks, known, &[5, 5]), 10, (15, 0)),
        (with(DAY, banks, known, &[0, 999]), 2, (6, 0)),
    ];
    for (given, room, wanted) in cases {
        let ((refusal, numbers), _) = same_verdict(&given, small, room, 100);
        assert_eq!((refusal, numbers[0]), wanted);
        same_reply(&given, small, 83_000, 400);
    }
}

/// The messages that are measured have code 00, their kind, and in each item this code: 0, or 14 under a bar. The judges say so.
fn check_measured(given: &Given, kind: Kind, message: &[u8], code: u8) {
    for size in [65_536, 1_000, 100, 1] {
        let ((refusal, numbers), table) = same_verdict(given, message, 10_000, size);
        let items = (numbers[1] + numbers[3]) as usize;
        assert_eq!((refusal, numbers[0], numbers[6]), (0, 0, kind as u64));
        assert!(items > 0 && table[..items].iter().all(|&of_item| of_item == code));
    }
    same_verdict(given, message, 999, 1_000);
    same_reply(given, message, 83_000, 104 + 65 * 10_000);
}

/// The judges agree on 100,000 damaged messages of three items that were of a kind, for a clearing day of each weekday, with barred lists.
fn check_damaged(kind: Kind, name: &str) {
    let days = [0, 1, 2, 3, 4, 5, 6].map(|k| Given {
        day: DAY + k,
        ..given(10)
    });
    let small = days.each_ref().map(|given| good(given, kind, 3, 50));
    let mut dice = Dice::new(1);
    let (mut met, mut met_in_items, mut refused) = ([0; 256], [0; 256], [0; 256]);
    for (given, message) in days.iter().zip(&small).cycle().take(100_000) {
        let barred = barred(given, &mut dice);
        let given = &Given {
            barred,
            ..given.clone()
        };
        let message = damaged(message, &mut dice);
        let (room, size) = (2 + dice.below(6) as usize, 1 + dice.below(400) as usize);
        let ((refusal, numbers), table) = same_verdict(given, &message, room, size);
        refused[refusal as usize] += 1;
        if refusal == 0 {
            met[numbers[0] as usize] += 1;
        }
        table.iter().for_each(|&code| met_in_items[code as usize] += 1);
        let (time, room) = (dice.below(260_000) as u32, 100 + dice.below(400) as usize);
        same_reply(given, &message, time, room);
    }
    // 255 is what a byte of the table is before an item is judged, and no code.
    let all = |met: [usize; 256]| (0..255).filter(|&code| met[code] > 0).collect::<Vec<_>>();
    let (codes, item_codes, refusals) = (all(met), all(met_in_items), all(refused));
    println!(
        "agreed on 100,000 damaged messages that were {name}, with codes {codes:?}, of items {item_codes:?}, and outcomes {refusals:?}"
    );
}

/// The messages that are measured, known identifiers and refusals, and 100,000 damaged messages of each kind.
pub fn check(measured: &[(&Given, Kind, &Vec<u8>, u8)]) {
    for (given, kind, message, code) in measured {
        check_measured(given, *kind, message, *code);
    }
    for (kind, name) in [(Kind::Atutal, "ATUTAL"), (Kind::Beszed, "BESZED")] {
        check_given(&good(&given(10), kind, 3, 50));
        check_damaged(kind, name);
    }
}
