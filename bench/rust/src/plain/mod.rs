//! The judge in plain Rust: the same rules, written as one writes Rust, without the proved library's tricks. Where QUICK is true its
//! text check has one of them, a first pass over 20h to 7Eh that has no branch. Both judges are measured; functions with one caller
//! have QUICK too where they make no use of it, so that the compiler puts them in line as it would with one judge alone.

mod cover;
mod dates;
mod fields;
mod records;
mod reply;
mod session;

pub use cover::{judge_fedjel, write_fedsta, Asked, FEDSTA};
#[cfg(check_digit)]
pub use fields::satisfies;
pub use records::Kind;
pub use reply::{reply, Particulars};
pub use session::{judge, Closing, Session};

/// What the judge is lent beside the message: the bank list, ascending, the known list, 25 bytes each, and the barred list, bank codes of
/// three digits, ascending (02, #105).
#[derive(Clone, Copy)]
pub struct Lists<'a> {
    pub banks: &'a [u32],
    pub known: &'a [u8],
    pub barred: &'a [u32],
}

/// The list is strictly ascending, and no number of it is over the most.
fn ascends_to(list: &[u32], most: u32) -> bool {
    list.windows(2).all(|pair| pair[0] < pair[1]) && list.last().is_none_or(|&last| last <= most)
}

impl Lists<'_> {
    /// Refusals 2, 3, 15.
    fn check(&self) -> Result<(), Refusal> {
        if !ascends_to(self.banks, 99_999_999) {
            return Err(Refusal::BankList);
        }
        if self.known.len() % 25 != 0 {
            return Err(Refusal::KnownList);
        }
        if !ascends_to(self.barred, 999) {
            return Err(Refusal::BarredList);
        }
        Ok(())
    }
}

/// Why a call is refused, by the numbers of 01 and 02.
#[derive(Clone, Copy, Debug, PartialEq, Eq)]
pub enum Refusal {
    NotADay = 1,
    BankList = 2,
    KnownList = 3,
    Table = 4,
    Overflow = 6,
    Address = 7,
    Particulars = 8,
    Room = 9,
    RequestList = 11,
    NotFedjel = 12,
    NoStanding = 13,
    BarredList = 15,
}
