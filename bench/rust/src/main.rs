//! Times of the proved library beside a judge in plain Rust, as one writes it and with a quick first pass over text, on the same
//! messages.

mod agreement;
#[cfg(check_digit)]
mod check_digit;
mod cover;
mod messages;
mod plain;
mod proved;

use messages::{given, good, Given};
use plain::{Kind, Particulars, Session};
use std::hint::black_box;
use std::time::{Duration, Instant};

const ROUNDS: usize = 15;
const PARTICULARS: Particulars = Particulars {
    duplicate: b'0',
    number: 7,
    time: 83000,
};

/// What is done with a message.
#[derive(Clone, Copy, PartialEq)]
enum Task {
    Whole,
    Pieces(usize),
    Reply,
}

struct Row<'a> {
    name: &'static str,
    given: &'a Given,
    message: &'a [u8],
    task: Task,
    proved: Duration,
    plain: Duration,
    /// Of plain Rust with the quick pass.
    quick: Duration,
}

fn row<'a>(name: &'static str, given: &'a Given, message: &'a [u8], task: Task) -> Row<'a> {
    Row {
        name,
        given,
        message,
        task,
        proved: Duration::MAX,
        plain: Duration::MAX,
        quick: Duration::MAX,
    }
}

/// The least time of a call, of as many as 20 milliseconds take.
fn least(mut call: impl FnMut()) -> Duration {
    let (start, mut best) = (Instant::now(), Duration::MAX);
    while start.elapsed() < Duration::from_millis(20) {
        let before = Instant::now();
        call();
        best = best.min(before.elapsed());
    }
    best
}

/// The least time of the proved and of the plain one over the rounds.
fn times(rounds: usize, mut proved: impl FnMut(), mut plain: impl FnMut()) -> (Duration, Duration) {
    let mut best = (Duration::MAX, Duration::MAX);
    for _ in 0..rounds {
        best = (best.0.min(least(&mut proved)), best.1.min(least(&mut plain)));
    }
    best
}

impl Row<'_> {
    /// A round: the proved judge and both plain ones in turn.
    fn measure(&mut self, table: &mut [u8], out: &mut [u8]) {
        self.proved = self.proved.min(self.proved(table, out));
        self.plain = self.plain.min(self.plain::<false>(table, out));
        self.quick = self.quick.min(self.plain::<true>(table, out));
    }

    fn proved(&self, table: &mut [u8], out: &mut [u8]) -> Duration {
        let (given, message, p) = (self.given, black_box(self.message), &PARTICULARS);
        match self.task {
            Task::Whole => least(|| {
                black_box(proved::judge(given, table, message));
            }),
            Task::Pieces(size) => least(|| {
                black_box(proved::judge_by(size, given, table, message));
            }),
            Task::Reply => least(|| {
                black_box(proved::reply(given, message, p.duplicate, p.number, p.time, out));
            }),
        }
    }

    fn plain<const QUICK: bool>(&self, table: &mut [u8], out: &mut [u8]) -> Duration {
        let (given, message, p) = (self.given, black_box(self.message), &PARTICULARS);
        let lists = given.lists();
        match self.task {
            Task::Whole => least(|| {
                black_box(plain::judge::<QUICK>(given.day, lists, table, message)).unwrap();
            }),
            Task::Pieces(size) => least(|| {
                let mut session = Session::<QUICK>::open(given.day, table).unwrap();
                for piece in message.chunks(size) {
                    session.take(piece, lists, table).unwrap();
                }
                black_box(session.close()).unwrap();
            }),
            Task::Reply => least(|| {
                black_box(plain::reply::<QUICK>(given.day, lists, message, p, out)).unwrap();
            }),
        }
    }
}

/// The first number as a part of the second.
fn of(a: Duration, b: Duration) -> f64 {
    a.as_secs_f64() / b.as_secs_f64()
}

fn print(rows: &[Row]) {
    let load = std::fs::read_to_string("/proc/loadavg").unwrap_or_default();
    println!(
        "10,000 items, {} bytes; the best of {ROUNDS} rounds",
        rows[0].message.len()
    );
    println!("load: {}", load.trim());
    println!("quick: plain Rust with the proved library's quick first pass over text");
    println!(
        "{:38} {:>10} {:>10} {:>13} {:>10} {:>13} {:>17} {:>16}",
        "", "proved", "plain", "proved/plain", "quick", "proved/quick", "proved, of whole", "plain, of whole"
    );
    let mut whole = &rows[0];
    for row in rows {
        if row.task == Task::Whole {
            whole = row;
        }
        print!(
            "{:38} {:7.3} ms {:7.3} ms {:13.2} {:7.3} ms {:13.2}",
            row.name,
            row.proved.as_secs_f64() * 1e3,
            row.plain.as_secs_f64() * 1e3,
            of(row.proved, row.plain),
            row.quick.as_secs_f64() * 1e3,
            of(row.proved, row.quick),
        );
        if row.task == Task::Whole {
            println!();
        } else {
            println!(
                " {:17.2} {:16.2}",
                of(row.proved, whole.proved),
                of(row.plain, whole.plain)
            );
        }
    }
}

/// What was wanted of the figures, and whether it is so.
fn print_wanted(whole: &Row, pieces: &[Row], thousand: &Row) {
    let wanted = |name: &str, value: f64, least: f64, most: f64| {
        let said = if value >= least && value <= most {
            "met"
        } else {
            "MISSED"
        };
        println!("{name:60} {value:6.3}   wanted {most:5.2}   {said}");
    };
    println!();
    wanted("whole, of plain Rust's time", of(whole.proved, whole.plain), 0.0, 0.8);
    let most = if cfg!(target_arch = "aarch64") { 1.1 } else { 1.0 };
    let name = "whole, of plain Rust's time with the quick text pass";
    wanted(name, of(whole.proved, whole.quick), 0.0, most);
    for (row, most) in pieces.iter().zip([1.05, 1.3, 2.5]) {
        let name = format!("{}, of whole", row.name.trim());
        wanted(&name, of(row.proved, whole.proved), 0.0, most);
    }
    let item = of(whole.proved, thousand.proved) / 10.0;
    wanted("cost an item, of 10,000 items against of 1,000", item, 0.95, 1.05);
}

fn main() {
    let (few, many) = (given(10), given(2700));
    let (others, own) = (given(10).barring_others(), given(10).barring_own());
    let plain = good(&few, Kind::Atutal, 10_000, 0);
    let accented = good(&few, Kind::Atutal, 10_000, 5);
    let listed = good(&many, Kind::Atutal, 10_000, 0);
    let thousand = good(&few, Kind::Atutal, 1_000, 0);
    let debits = good(&few, Kind::Beszed, 10_000, 0);
    let covers = cover::measured();
    agreement::check(&[
        (&few, Kind::Atutal, &plain, 0),
        (&few, Kind::Atutal, &accented, 0),
        (&many, Kind::Atutal, &listed, 0),
        (&few, Kind::Atutal, &thousand, 0),
        (&others, Kind::Atutal, &plain, 0),
        (&own, Kind::Atutal, &plain, 14),
        (&few, Kind::Beszed, &debits, 0),
        (&own, Kind::Beszed, &debits, 0),
    ]);
    cover::check(&covers);

    let mut rows = vec![
        row("whole, 10 banks", &few, &plain, Task::Whole),
        row("  pieces of 64 KiB", &few, &plain, Task::Pieces(65_536)),
        row("  pieces of 1,000 bytes", &few, &plain, Task::Pieces(1_000)),
        row("  pieces of 100 bytes", &few, &plain, Task::Pieces(100)),
        row("  pieces of 1 byte", &few, &plain, Task::Pieces(1)),
        row("  reply of 10,000 references", &few, &plain, Task::Reply),
        row("whole, 5 % accented names", &few, &accented, Task::Whole),
        row("whole, 2,700 banks", &many, &listed, Task::Whole),
        row("  pieces of 64 KiB", &many, &listed, Task::Pieces(65_536)),
        row("  pieces of 1,000 bytes", &many, &listed, Task::Pieces(1_000)),
        row("  pieces of 100 bytes", &many, &listed, Task::Pieces(100)),
        row("whole, 1,000 items", &few, &thousand, Task::Whole),
        row("whole, 999 barred codes", &others, &plain, Task::Whole),
        row("  pieces of 1,000 bytes", &others, &plain, Task::Pieces(1_000)),
        row("whole, under a bar", &own, &plain, Task::Whole),
        row("BESZED, whole, 10 banks", &few, &debits, Task::Whole),
        row("  pieces of 64 KiB", &few, &debits, Task::Pieces(65_536)),
        row("  pieces of 1,000 bytes", &few, &debits, Task::Pieces(1_000)),
        row("  pieces of 100 bytes", &few, &debits, Task::Pieces(100)),
        row("  reply of 10,000 references", &few, &debits, Task::Reply),
    ];
    let (mut table, mut out) = (vec![0; 10_000], vec![0; 104 + 65 * 10_000]);
    for _ in 0..ROUNDS {
        for row in &mut rows {
            row.measure(&mut table, &mut out);
        }
    }
    print(&rows);
    print_wanted(&rows[0], &rows[1..4], &rows[11]);
    println!();
    #[cfg(check_digit)]
    check_digit::print();
    #[cfg(not(check_digit))]
    println!("the check digit of annex 6 isn't timed alone: in the library the compiler put it in line everywhere");
    cover::print(&covers);
}
