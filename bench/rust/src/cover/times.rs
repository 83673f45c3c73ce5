//! Times of a FEDJEL judged and of a FEDSTA written, beside plain Rust.

use super::agreement::asked;
use super::{good, Cover, Order, DAY};
use crate::plain::{self, FEDSTA};
use crate::{of, proved, times};
use std::hint::black_box;
use std::time::Duration;

/// Fewer than elsewhere: a search through 10,000 requests for each of 10,000 items takes its time.
const ROUNDS: usize = 3;

/// The FEDJELs that are measured.
pub fn measured() -> [Cover; 4] {
    [
        good(DAY, 10_000, Order::Same),
        good(DAY, 10_000, Order::Reversed),
        good(DAY, 10_000, Order::Shuffled),
        good(DAY, 1_000, Order::Shuffled),
    ]
}

fn judging(cover: &Cover) -> (Duration, Duration) {
    let (mut a, mut b, mut numbers) = (vec![0; 10_000], vec![0; 10_000], [0; 2]);
    times(
        ROUNDS,
        || {
            black_box(proved::judge_fedjel(black_box(cover), &mut a, &mut numbers));
        },
        || {
            let cover = black_box(cover);
            black_box(plain::judge_fedjel(cover.day, &cover.requests, &cover.message, &mut b)).unwrap();
        },
    )
}

/// The FEDSTA on the last request of the list.
fn writing(cover: &Cover) -> (Duration, Duration) {
    let (last, mut a, mut b) = (cover.requests.len() - super::REQUEST, [0; FEDSTA], [0; FEDSTA]);
    let asked = asked(cover.requests[last..last + 25].try_into().unwrap());
    times(
        ROUNDS,
        || {
            black_box(proved::write_fedsta(black_box(cover), &asked, &mut a));
        },
        || {
            let cover = black_box(cover);
            black_box(plain::write_fedsta(
                cover.day,
                &cover.requests,
                &cover.message,
                &asked,
                &mut b,
            ))
            .unwrap();
        },
    )
}

/// A row for each FEDJEL, and one for a FEDSTA from the last.
pub fn print(measured: &[Cover; 4]) {
    let [same, reversed, shuffled, thousand] = measured;
    println!();
    println!("FEDJEL, as many requests as items; the best of {ROUNDS} rounds");
    println!("{:38} {:>10} {:>10} {:>13}", "", "proved", "plain", "proved/plain");
    let rows = [
        ("10,000 items, the list's order", judging(same)),
        ("10,000 items, reversed", judging(reversed)),
        ("10,000 items, shuffled", judging(shuffled)),
        ("1,000 items, shuffled", judging(thousand)),
        ("  FEDSTA", writing(thousand)),
    ];
    for (name, (proved, plain)) in rows {
        let (a, b) = (proved.as_secs_f64() * 1e3, plain.as_secs_f64() * 1e3);
        println!("{name:38} {a:7.3} ms {b:7.3} ms {:13.2}", of(proved, plain));
    }
}
