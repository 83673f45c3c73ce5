//! The proved library, by its C entries (include/nshanvekh.h). A slice is a pointer and a length. Beside these, where bench/run could
//! give it a name, one function of its inside.

use crate::cover::Cover;
use crate::messages::Given;
use crate::plain::Asked;

const SESSION_BYTES: usize = 344;

/// The numbers of closing: message code, accepted count and sum, refused count and sum, zero watch, kind.
pub type Numbers = [u64; 7];

extern "C" {
    fn nsh_open(day: u32, table: *const u8, table_len: usize, session: *mut u8, session_len: usize) -> u32;

    fn nsh_piece(
        session: *mut u8,
        session_len: usize,
        bytes: *const u8,
        bytes_len: usize,
        banks: *const u32,
        banks_len: usize,
        known: *const u8,
        known_len: usize,
        barred: *const u32,
        barred_len: usize,
        table: *mut u8,
        table_len: usize,
    ) -> u32;

    fn nsh_close(
        session: *mut u8,
        session_len: usize,
        numbers: *mut u64,
        numbers_len: usize,
        id: *mut u8,
        id_len: usize,
    ) -> u32;

    fn nsh_judge(
        message: *const u8,
        message_len: usize,
        day: u32,
        banks: *const u32,
        banks_len: usize,
        known: *const u8,
        known_len: usize,
        barred: *const u32,
        barred_len: usize,
        table: *mut u8,
        table_len: usize,
        numbers: *mut u64,
        numbers_len: usize,
        id: *mut u8,
        id_len: usize,
    ) -> u32;

    fn nsh_reply(
        message: *const u8,
        message_len: usize,
        day: u32,
        banks: *const u32,
        banks_len: usize,
        known: *const u8,
        known_len: usize,
        barred: *const u32,
        barred_len: usize,
        duplicate: u8,
        number: u32,
        time: u32,
        out: *mut u8,
        out_len: usize,
        numbers: *mut u64,
        numbers_len: usize,
    ) -> u32;

    fn nsh_fedjel(
        message: *const u8,
        message_len: usize,
        day: u32,
        requests: *const u8,
        requests_len: usize,
        table: *mut u8,
        table_len: usize,
        numbers: *mut u64,
        numbers_len: usize,
    ) -> u32;

    fn nsh_fedsta(
        message: *const u8,
        message_len: usize,
        day: u32,
        requests: *const u8,
        requests_len: usize,
        id: *const u8,
        id_len: usize,
        cover: u8,
        duplicate: u8,
        number: u32,
        time: u32,
        count: u32,
        out: *mut u8,
        out_len: usize,
    ) -> u32;
}

/// The refusal's number or 0, then the numbers of closing.
pub fn judge(given: &Given, table: &mut [u8], message: &[u8]) -> (u32, Numbers) {
    let (mut numbers, mut id) = (Numbers::default(), [0; 25]);
    // SAFETY: each pointer and length is of a slice that lives through the call, and the lent ones are apart.
    let refusal = unsafe {
        nsh_judge(
            message.as_ptr(),
            message.len(),
            given.day,
            given.banks.as_ptr(),
            given.banks.len(),
            given.known.as_ptr(),
            given.known.len(),
            given.barred.as_ptr(),
            given.barred.len(),
            table.as_mut_ptr(),
            table.len(),
            numbers.as_mut_ptr(),
            numbers.len(),
            id.as_mut_ptr(),
            id.len(),
        )
    };
    (refusal, numbers)
}

/// A session that the library keeps as bytes.
struct Session([u8; SESSION_BYTES]);

impl Session {
    fn open(day: u32, table: &[u8]) -> Result<Session, u32> {
        let mut bytes = [0; SESSION_BYTES];
        // SAFETY: as in `judge`.
        match unsafe { nsh_open(day, table.as_ptr(), table.len(), bytes.as_mut_ptr(), bytes.len()) } {
            0 => Ok(Session(bytes)),
            refusal => Err(refusal),
        }
    }

    fn take(&mut self, piece: &[u8], given: &Given, table: &mut [u8]) -> u32 {
        // SAFETY: as in `judge`.
        unsafe {
            nsh_piece(
                self.0.as_mut_ptr(),
                self.0.len(),
                piece.as_ptr(),
                piece.len(),
                given.banks.as_ptr(),
                given.banks.len(),
                given.known.as_ptr(),
                given.known.len(),
                given.barred.as_ptr(),
                given.barred.len(),
                table.as_mut_ptr(),
                table.len(),
            )
        }
    }

    fn close(&mut self, numbers: &mut Numbers) -> u32 {
        let mut id = [0; 25];
        // SAFETY: as in `judge`.
        unsafe {
            nsh_close(
                self.0.as_mut_ptr(),
                self.0.len(),
                numbers.as_mut_ptr(),
                numbers.len(),
                id.as_mut_ptr(),
                id.len(),
            )
        }
    }
}

/// The same, by pieces of so many bytes, a call for each.
pub fn judge_by(size: usize, given: &Given, table: &mut [u8], message: &[u8]) -> (u32, Numbers) {
    let mut numbers = Numbers::default();
    let mut session = match Session::open(given.day, table) {
        Ok(session) => session,
        Err(refusal) => return (refusal, numbers),
    };
    for piece in message.chunks(size) {
        let refusal = session.take(piece, given, table);
        if refusal != 0 {
            return (refusal, numbers);
        }
    }
    (session.close(&mut numbers), numbers)
}

/// The refusal's number or 0, and the reply's length.
pub fn reply(given: &Given, message: &[u8], duplicate: u8, number: u32, time: u32, out: &mut [u8]) -> (u32, u64) {
    let mut length = [0];
    // SAFETY: as in `judge`.
    let refusal = unsafe {
        nsh_reply(
            message.as_ptr(),
            message.len(),
            given.day,
            given.banks.as_ptr(),
            given.banks.len(),
            given.known.as_ptr(),
            given.known.len(),
            given.barred.as_ptr(),
            given.barred.len(),
            duplicate,
            number,
            time,
            out.as_mut_ptr(),
            out.len(),
            length.as_mut_ptr(),
            length.len(),
        )
    };
    (refusal, length[0])
}

/// The refusal's number or 0; the numbers are the message code and the number of items, and stay where it is refused.
pub fn judge_fedjel(cover: &Cover, table: &mut [u8], numbers: &mut [u64; 2]) -> u32 {
    // SAFETY: as in `judge`.
    unsafe {
        nsh_fedjel(
            cover.message.as_ptr(),
            cover.message.len(),
            cover.day,
            cover.requests.as_ptr(),
            cover.requests.len(),
            table.as_mut_ptr(),
            table.len(),
            numbers.as_mut_ptr(),
            numbers.len(),
        )
    }
}

/// The refusal's number or 0.
pub fn write_fedsta(cover: &Cover, asked: &Asked, out: &mut [u8]) -> u32 {
    let particulars = &asked.particulars;
    // SAFETY: as in `judge`.
    unsafe {
        nsh_fedsta(
            cover.message.as_ptr(),
            cover.message.len(),
            cover.day,
            cover.requests.as_ptr(),
            cover.requests.len(),
            asked.id.as_ptr(),
            asked.id.len(),
            u8::from(asked.cover),
            particulars.duplicate,
            particulars.number,
            particulars.time,
            asked.count,
            out.as_mut_ptr(),
            out.len(),
        )
    }
}

#[cfg(check_digit)]
extern "C" {
    /// `cdv::satisfies`: a slice is its pointer and its length. Of what it returns only the last bit counts: no C entry, it needn't clear the others.
    fn bench_satisfies(at: *const u8, length: usize) -> u8;
}

/// The check digit of annex 6.
#[cfg(check_digit)]
#[inline]
pub fn satisfies(field: &[u8]) -> bool {
    // SAFETY: the pointer is to what the slice has, which lives through the call.
    unsafe { bench_satisfies(field.as_ptr(), field.len()) & 1 == 1 }
}
