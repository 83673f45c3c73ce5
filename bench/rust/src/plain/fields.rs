//! Fields: text, digits, the check digit, accounts, banks, purposes (01, Digits and dates; 002 annexes 2, 6 and 11).

const PURPOSES: [&[u8; 3]; 46] = [
    b"BEB", b"BEE", b"BET", b"BKB", b"BKK", b"BLV", b"BNY", b"BEO", b"BGC", b"BGK", b"BGX", b"BGY", b"MUN", b"CSP",
    b"ETK", b"GYD", b"GYS", b"ILK", b"TID", b"TPZ", b"MHL", b"MGY", b"MBD", b"ELL", b"EGS", b"NYP", b"UGY", b"MNJ",
    b"NYG", b"NOE", b"NOK", b"NME", b"NMK", b"NGY", b"CST", b"DIJ", b"FUJ", b"FUT", b"GAZ", b"KEM", b"KTS", b"LBR",
    b"MVZ", b"SZE", b"THO", b"VIL",
];

/// Every byte may stand in text: 20h to 7Eh, or a Hungarian letter of code page 852. Where there is a quick pass, letters are looked
/// for only if it fails.
pub fn is_text<const QUICK: bool>(field: &[u8]) -> bool {
    if QUICK && field.iter().fold(true, |ok, b| ok & matches!(b, b' '..=b'~')) {
        return true;
    }
    field.iter().all(|b| {
        matches!(
            b,
            b' '..=b'~'
                | 0x81
                | 0x82
                | 0x8a
                | 0x8b
                | 0x90
                | 0x94
                | 0x99
                | 0x9a
                | 0xa0
                | 0xa1
                | 0xa2
                | 0xa3
                | 0xb5
                | 0xd6
                | 0xe0
                | 0xe9
                | 0xeb
                | 0xfb
        )
    })
}

pub fn is_blank(field: &[u8]) -> bool {
    field.iter().all(|&b| b == b' ')
}

pub fn is_blank_or_zero(field: &[u8]) -> bool {
    field.iter().all(|&b| b == b' ' || b == b'0')
}

pub fn is_digits(field: &[u8]) -> bool {
    field.iter().all(u8::is_ascii_digit)
}

/// The number that the digits stand for; none where a byte is no digit.
pub fn number(field: &[u8]) -> Option<u64> {
    field
        .iter()
        .try_fold(0, |n, b| b.is_ascii_digit().then(|| n * 10 + u64::from(b - b'0')))
}

/// Every byte is a digit, and the sum of the digits by these weights in turn is a multiple of ten.
fn weighs_out(field: &[u8], weights: &[u32]) -> bool {
    let mut sum = 0;
    for (b, weight) in field.iter().zip(weights.iter().cycle()) {
        if !b.is_ascii_digit() {
            return false;
        }
        sum += u32::from(b - b'0') * weight;
    }
    sum % 10 == 0
}

/// The check digit of annex 6.
pub fn satisfies(field: &[u8]) -> bool {
    weighs_out(field, &[9, 7, 3, 1])
}

/// A tax number, or an EAN-13.
pub fn is_initiator(field: &[u8]) -> bool {
    match field {
        [b'A', tax @ .., b'T', _, _, _] => satisfies(tax) && is_digits(&field[10..]),
        _ => weighs_out(field, &[1, 3]),
    }
}

/// A service provider's "other" identifier: E, eight digits with their check digit, four spaces.
pub fn is_provider(field: &[u8]) -> bool {
    matches!(field, [b'E', code @ .., b' ', b' ', b' ', b' '] if satisfies(code))
}

pub fn is_listed(field: &[u8], banks: &[u32]) -> bool {
    satisfies(field) && number(field).is_some_and(|code| banks.binary_search(&(code as u32)).is_ok())
}

/// Eight digits, of which the first three are a code of the barred list (02, #105).
pub fn is_barred(field: &[u8], barred: &[u32]) -> bool {
    number(field).is_some_and(|code| barred.binary_search(&(code as u32 / 100_000)).is_ok())
}

/// Sixteen digits, or eight digits and eight spaces, with their check digit.
pub fn is_account(field: &[u8]) -> bool {
    let (front, back) = field.split_at(8);
    satisfies(if is_blank(back) { front } else { field })
}

/// An account of zeros.
pub fn is_zero_account(field: &[u8]) -> bool {
    let (front, back) = field.split_at(8);
    let zeros = |part: &[u8]| part.iter().all(|&b| b == b'0');
    zeros(front) && (zeros(back) || is_blank(back))
}

pub fn is_purpose(field: &[u8]) -> bool {
    PURPOSES.iter().any(|purpose| field == *purpose)
}
