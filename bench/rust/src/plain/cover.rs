//! Cover answers: a FEDJEL judged by the day's requests, and the FEDSTA of a standing answer (02, #103; 002 sections 12 and 4).

use super::dates::{day_number, is_within};
use super::fields::{is_digits, number};
use super::reply::{put_number, Particulars};
use super::Refusal;

/// The bytes of the records with their endings, of a request, and of a FEDSTA.
const HEAD: usize = 34;
const ITEM: usize = 72;
const FOOT: usize = 44;
const REQUEST: usize = 65;
pub const FEDSTA: usize = 104;

/// The message code and the number of items.
#[derive(Clone, Copy, Debug, PartialEq, Eq)]
pub struct Judged {
    pub code: u8,
    pub items: usize,
}

/// What a FEDSTA is asked for with: its request's identifier, whether the bank has cover, and the particulars.
pub struct Asked<'a> {
    pub id: &'a [u8; 25],
    pub cover: bool,
    pub particulars: Particulars,
    pub count: u32,
}

/// The parts of a FEDJEL, each record with its ending.
#[derive(Clone, Copy)]
struct Fedjel<'a> {
    head: &'a [u8],
    items: &'a [u8],
    foot: &'a [u8],
}

impl<'a> Fedjel<'a> {
    /// None where lengths or endings aren't a FEDJEL's.
    fn cut(message: &'a [u8]) -> Option<Self> {
        let (head, rest) = message.split_at_checked(HEAD)?;
        let (items, foot) = rest.split_at_checked(rest.len().checked_sub(FOOT)?)?;
        let fedjel = Fedjel { head, items, foot };
        let whole = !items.is_empty() && items.len() % ITEM == 0;
        (whole && fedjel.records().all(|record| record.ends_with(b"\r\n"))).then_some(fedjel)
    }

    fn items(self) -> impl Iterator<Item = &'a [u8]> {
        self.items.chunks_exact(ITEM)
    }

    fn records(self) -> impl Iterator<Item = &'a [u8]> {
        [self.head].into_iter().chain(self.items()).chain([self.foot])
    }
}

/// The first request with the identifier.
fn find<'a>(requests: &'a [u8], id: &[u8]) -> Option<&'a [u8]> {
    requests.chunks_exact(REQUEST).find(|request| request[..25] == *id)
}

/// Whole requests with sums of digits, none of which has the identifier of an earlier one.
fn is_request_list(list: &[u8]) -> bool {
    let mut requests = list.chunks_exact(REQUEST).enumerate();
    list.len() % REQUEST == 0
        && requests.clone().all(|(_, request)| is_digits(&request[49..65]))
        && requests.all(|(k, request)| find(&list[..k * REQUEST], &request[..25]).is_none())
}

/// The type and the answer go together (002 section 12.4.1, T525).
fn is_answer(item: &[u8]) -> bool {
    matches!((&item[0..2], item[67]), (b"02", b'1') | (b"03", b'0' | b'9' | b'5'))
}

/// The item has the request's identifier, account and sum, and an answer.
fn answers(item: &[u8], request: &[u8]) -> bool {
    item[2..67] == *request && is_answer(item)
}

/// The code of an item that comes after these (002 section 12.4.1, what is marked T).
fn item_code(item: &[u8], earlier: &[u8], requests: &[u8]) -> u8 {
    let Some(request) = find(requests, &item[2..27]) else {
        return 74;
    };
    if earlier.chunks_exact(ITEM).any(|item| answers(item, request)) {
        75
    } else if item[27..51] != request[25..49] {
        71
    } else if item[51..67] != request[49..65] {
        89
    } else if !is_answer(item) {
        76
    } else {
        0
    }
}

/// The items' codes in order.
fn item_codes<'a>(fedjel: Fedjel<'a>, requests: &'a [u8]) -> impl Iterator<Item = u8> + 'a {
    let items = fedjel.items().enumerate();
    items.map(move |(k, item)| item_code(item, &fedjel.items[..k * ITEM], requests))
}

/// The day is one from the last workday before E to E, Monday to Friday (12.1.1, note). Day 1 is a Monday.
fn is_compiled(day: u32, e: u32) -> bool {
    let back = match e % 7 {
        0 => 2,
        1 => 3,
        _ => 1,
    };
    is_within(day, e, back)
}

/// The code of the head's first fault, 0 if there is none (12.1.1).
fn head_code(head: &[u8], day: u32, e: u32, requests: &[u8]) -> u8 {
    let is_bank = |bank: &[u8]| is_digits(bank) && requests.chunks_exact(REQUEST).any(|r| r[25..28] == *bank);
    let compiled = number(&head[12..20]).and_then(|date| day_number(date as u32));
    if &head[0..2] != b"01" {
        41
    } else if &head[2..8] != b"FEDJEL" {
        9
    } else if !head[8].is_ascii_digit() {
        42
    } else if !is_bank(&head[9..12]) {
        43
    } else if !compiled.is_some_and(|compiled| is_compiled(compiled, e)) {
        44
    } else if !is_digits(&head[20..24]) {
        2
    } else if number(&head[24..32]) != Some(day.into()) {
        7
    } else {
        0
    }
}

/// The code of an item's first fault that refuses the message (12.4.1, what is marked Ü).
fn item_fault(item: &[u8]) -> u8 {
    if !matches!(&item[0..2], b"02" | b"03") {
        46
    } else if !is_digits(&item[51..67]) {
        34
    } else {
        0
    }
}

/// How many items, and their sum, exactly.
#[derive(Default)]
struct Totals {
    count: u128,
    sum: u128,
}

/// The code of the foot's first fault; where an item is faulty the halves count together (12.2.1 and its note).
fn foot_code(foot: &[u8], fedjel: Fedjel, faulty: bool) -> u8 {
    let mut totals = [Totals::default(), Totals::default()];
    for item in fedjel.items() {
        let half = &mut totals[usize::from(&item[0..2] == b"03")];
        half.count += 1;
        half.sum += u128::from(number(&item[51..67]).unwrap_or(0));
    }
    let [covered, uncovered] = totals;
    let field = |from: usize, to: usize| number(&foot[from..to]).map(u128::from);
    let both = |a: Option<u128>, b: Option<u128>| Some(a? + b?);
    if &foot[0..2] != b"04" {
        return 47;
    }
    if faulty {
        if both(field(2, 6), field(22, 26)) != Some(covered.count + uncovered.count) {
            18
        } else if both(field(6, 22), field(26, 42)) != Some(covered.sum + uncovered.sum) {
            19
        } else {
            0
        }
    } else if field(2, 6) != Some(covered.count) {
        18
    } else if field(6, 22) != Some(covered.sum) {
        19
    } else if field(22, 26) != Some(uncovered.count) {
        18
    } else if field(26, 42) != Some(uncovered.sum) {
        19
    } else {
        0
    }
}

/// The message code: 36 before all else, then head, items and foot; e is the clearing day's number.
fn message_code(fedjel: Fedjel, day: u32, e: u32, requests: &[u8], faulty: bool) -> u8 {
    let is_plain = |record: &[u8]| record[..record.len() - 2].iter().all(|b| matches!(b, b' '..=b'~'));
    if !fedjel.records().all(is_plain) {
        return 36;
    }
    let head = head_code(fedjel.head, day, e, requests);
    if head != 0 {
        return head;
    }
    match fedjel.items().map(item_fault).find(|&code| code != 0) {
        Some(code) => code,
        None => foot_code(fedjel.foot, fedjel, faulty),
    }
}

/// The day's number and the parts: refusals 1, 11, 12.
fn taken<'a>(day: u32, requests: &[u8], message: &'a [u8]) -> Result<(u32, Fedjel<'a>), Refusal> {
    let e = day_number(day).ok_or(Refusal::NotADay)?;
    if !is_request_list(requests) {
        return Err(Refusal::RequestList);
    }
    let fedjel = Fedjel::cut(message).ok_or(Refusal::NotFedjel)?;
    Ok((e, fedjel))
}

/// A FEDJEL: refusals 1, 11, 12, 9. The items' codes go to the front of the table.
pub fn judge_fedjel(day: u32, requests: &[u8], message: &[u8], table: &mut [u8]) -> Result<Judged, Refusal> {
    let (e, fedjel) = taken(day, requests, message)?;
    let items = fedjel.items().count();
    let table = table.get_mut(..items).ok_or(Refusal::Room)?;
    for (place, code) in table.iter_mut().zip(item_codes(fedjel, requests)) {
        *place = code;
    }
    let faulty = table.iter().any(|&code| code != 0);
    let code = message_code(fedjel, day, e, requests, faulty);
    Ok(Judged { code, items })
}

/// The state of a FEDSTA, by the standing answer to the request; none without one, or where the bank's own cover is missing.
fn state(fedjel: Fedjel, request: &[u8], cover: bool) -> Option<u8> {
    match fedjel.items().find(|item| answers(item, request))?[67] {
        b'1' => cover.then_some(0),
        b'0' => Some(98),
        b'9' => Some(97),
        _ => Some(50),
    }
}

/// The FEDSTA of a standing answer goes to the front of the output: refusals 1, 11, 12, 13, 8, 9.
pub fn write_fedsta(day: u32, requests: &[u8], message: &[u8], asked: &Asked, out: &mut [u8]) -> Result<(), Refusal> {
    let (e, fedjel) = taken(day, requests, message)?;
    let request = find(requests, asked.id).ok_or(Refusal::NoStanding)?;
    let faulty = item_codes(fedjel, requests).any(|code| code != 0);
    if message_code(fedjel, day, e, requests, faulty) != 0 {
        return Err(Refusal::NoStanding);
    }
    let state = state(fedjel, request, asked.cover).ok_or(Refusal::NoStanding)?;
    let particulars = &asked.particulars;
    if !particulars.are_right() || asked.count > 999_999 {
        return Err(Refusal::Particulars);
    }
    let out = out.get_mut(..FEDSTA).ok_or(Refusal::Room)?;
    let (head, foot) = out.split_at_mut(56);
    head[0..8].copy_from_slice(b"01FEDSTA");
    head[8] = particulars.duplicate;
    head[9..34].copy_from_slice(asked.id);
    put_number(&mut head[34..42], day.into());
    put_number(&mut head[42..46], particulars.number.into());
    put_number(&mut head[46..52], particulars.time.into());
    put_number(&mut head[52..54], state.into());
    head[54..56].copy_from_slice(b"\r\n");
    foot[0..2].copy_from_slice(b"03");
    foot[2..46].fill(b'0');
    let half = if state == 0 {
        &mut foot[2..24]
    } else {
        &mut foot[24..46]
    };
    put_number(&mut half[0..6], asked.count.into());
    half[6..22].copy_from_slice(&request[49..65]);
    foot[46..48].copy_from_slice(b"\r\n");
    Ok(())
}
