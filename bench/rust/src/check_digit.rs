//! The check digit of annex 6 alone, by a function inside the proved library and by plain Rust's: that they agree, and the time of
//! a call.

use crate::messages::{checked, Dice};
use crate::{of, plain, proved, times, ROUNDS};
use std::collections::BTreeSet;
use std::hint::black_box;

/// How many numbers, and how often each is asked about in one time that is taken.
const NUMBERS: usize = 1_000;
const TURNS: usize = 20;

/// Good numbers of so many digits, one behind the other, no two the same.
fn numbers(digits: usize) -> Vec<u8> {
    let (mut dice, mut numbers) = (Dice::new(digits as u64), BTreeSet::new());
    while numbers.len() < NUMBERS {
        numbers.insert(checked(&mut dice, digits));
    }
    numbers.into_iter().collect::<String>().into_bytes()
}

/// Both say that the number is good, and that it isn't where any one byte of it is any other.
fn check(number: &[u8]) {
    assert!(proved::satisfies(number) && plain::satisfies(number));
    let mut changed = number.to_vec();
    for (at, &right) in number.iter().enumerate() {
        for byte in (0..=255).filter(|&byte| byte != right) {
            changed[at] = byte;
            assert!(!proved::satisfies(&changed) && !plain::satisfies(&changed));
        }
        changed[at] = right;
    }
}

/// A call, as the proved function is one: nothing of it stands in line where it is timed.
#[inline(never)]
fn plain_satisfies(number: &[u8]) -> bool {
    plain::satisfies(number)
}

/// Asks about each of the numbers so many times, and branches on the answers as callers do. What goes through `black_box` is the
/// slices, so that neither function knows a length before it is called.
fn ask(numbers: &[&[u8]], satisfies: impl Fn(&[u8]) -> bool) {
    for _ in 0..TURNS {
        assert!(black_box(numbers).iter().all(|number| satisfies(number)));
    }
}

/// A row for each length that an account or a bank has.
pub fn print() {
    println!("the check digit of annex 6, a call, over 1,000 numbers; the best of {ROUNDS} rounds");
    println!("{:38} {:>10} {:>10} {:>13}", "", "proved", "plain", "proved/plain");
    for digits in [8, 16] {
        let numbers = numbers(digits);
        let numbers: Vec<&[u8]> = numbers.chunks_exact(digits).collect();
        numbers.iter().for_each(|number| check(number));
        let (proved, plain) = times(
            ROUNDS,
            || ask(&numbers, proved::satisfies),
            || ask(&numbers, plain_satisfies),
        );
        let [a, b] = [proved, plain].map(|time| time.as_secs_f64() * 1e9 / (NUMBERS * TURNS) as f64);
        println!(
            "{:38} {a:7.2} ns {b:7.2} ns {:13.2}",
            format!("{digits} digits"),
            of(proved, plain)
        );
    }
}
