//! FEDJELs with the lists that they are judged by: good ones of any number of items, and ones with something changed.

mod agreement;
mod damage;
mod times;

pub use agreement::check;
pub use times::{measured, print};

use crate::messages::{account, with_check_digit, Dice, DAY};

/// The bytes of a request, and of the records of a FEDJEL with their endings.
const REQUEST: usize = 65;
const HEAD: usize = 34;
const ITEM: usize = 72;
const FOOT: usize = 44;

/// The types and answers of ten items: seven say that there is cover.
const ANSWERS: [&[u8; 3]; 10] = [
    b"021", b"021", b"021", b"021", b"021", b"021", b"021", b"030", b"039", b"035",
];

/// A FEDJEL with the clearing day and the requests that it is judged by.
#[derive(Clone)]
pub struct Cover {
    pub day: u32,
    pub requests: Vec<u8>,
    pub message: Vec<u8>,
}

/// How the items stand to the requests that they answer.
#[derive(Clone, Copy)]
enum Order {
    Same,
    Reversed,
    Shuffled,
}

/// So many requests for accounts of three banks; their identifiers differ in the last four digits alone.
fn requests(dice: &mut Dice, count: usize) -> Vec<u8> {
    let mut list = Vec::with_capacity(REQUEST * count);
    for k in 0..count {
        let (bank, branch) = (dice.pick(&["104", "117", "120"]), dice.below(10_000));
        let bank = with_check_digit(format!("{bank}{branch:04}"));
        let (account, sum) = (account(dice), 1 + dice.below(900_000_000));
        list.extend_from_slice(format!("A12345676T00120200301{k:04}{bank}{account:16}{sum:016}").as_bytes());
    }
    list
}

/// The places of so many requests in an order.
fn places(dice: &mut Dice, count: usize, order: Order) -> Vec<usize> {
    let mut places: Vec<usize> = (0..count).collect();
    match order {
        Order::Same => {}
        Order::Reversed => places.reverse(),
        Order::Shuffled => {
            for k in (1..count).rev() {
                places.swap(k, dice.below(k as u64 + 1) as usize);
            }
        }
    }
    places
}

/// The item that answers the request so, with its ending.
fn item(request: &[u8], answer: &[u8; 3]) -> Vec<u8> {
    [&answer[0..2], request, &answer[2..3], b"00\r\n"].concat()
}

/// The foot that the items give; what a field can't hold is cut on the left.
fn foot(items: &[u8]) -> String {
    let totals = |kind: &[u8; 2]| {
        let mut totals = (0, 0);
        for item in items.chunks_exact(ITEM).filter(|item| &item[0..2] == kind) {
            let sum: u128 = String::from_utf8_lossy(&item[51..67]).parse().unwrap_or(0);
            totals = (totals.0 + 1, totals.1 + sum);
        }
        (totals.0 % 10_000, totals.1 % 10_000_000_000_000_000)
    };
    let ((covered, sum), (uncovered, other)) = (totals(b"02"), totals(b"03"));
    format!("04{covered:04}{sum:016}{uncovered:04}{other:016}\r\n")
}

/// The FEDJEL of these items on the requests, sent by the bank of the first.
fn cover(day: u32, requests: Vec<u8>, items: Vec<u8>) -> Cover {
    let bank = String::from_utf8_lossy(&requests[25..28]);
    let head = format!("01FEDJEL0{bank}{day}0001{day}\r\n");
    let message = [head.as_bytes(), &items, foot(&items).as_bytes()].concat();
    Cover { day, requests, message }
}

/// A good FEDJEL: code 00, each item the standing answer to a request of its own.
fn good(day: u32, count: usize, order: Order) -> Cover {
    let mut dice = Dice::new(count as u64);
    let requests = requests(&mut dice, count);
    let places = places(&mut dice, count, order).into_iter();
    let items = places.flat_map(|place| item(&requests[place * REQUEST..][..REQUEST], dice.pick(&ANSWERS)));
    let items = items.collect();
    cover(day, requests, items)
}
