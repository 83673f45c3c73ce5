//! Gregorian dates as numbers yyyymmdd, years 0001 to 9999.

/// The days of each month, and the days of the year before it, where the year isn't a leap year.
const LENGTHS: [u32; 12] = [31, 28, 31, 30, 31, 30, 31, 31, 30, 31, 30, 31];
const EARLIER: [u32; 12] = [0, 31, 59, 90, 120, 151, 181, 212, 243, 273, 304, 334];

/// The day number of a date, 1 for 1 January of year 1; none where the number is no date.
pub fn day_number(date: u32) -> Option<u32> {
    let (year, month, day) = (date / 10_000, date / 100 % 100, date % 100);
    if !(1..=9999).contains(&year) || !(1..=12).contains(&month) {
        return None;
    }
    let leap = u32::from(year % 4 == 0 && (year % 100 != 0 || year % 400 == 0));
    let (length, earlier) = (LENGTHS[month as usize - 1], EARLIER[month as usize - 1]);
    if !(1..=length + if month == 2 { leap } else { 0 }).contains(&day) {
        return None;
    }
    let years = year - 1;
    Some(years * 365 + years / 4 - years / 100 + years / 400 + earlier + if month > 2 { leap } else { 0 } + day)
}

/// Whether the later day lies from the first to so many days after it, both ends in.
pub fn is_within(first: u32, later: u32, days: u32) -> bool {
    later.checked_sub(first).is_some_and(|apart| apart <= days)
}

/// How many days after E its eighth workday is, Monday to Friday (002 section 2.3.1, note 1). Day 1 is a Monday.
pub fn days_to_eighth_workday(e: u32) -> u32 {
    match e % 7 {
        0..=2 => 10,
        6 => 11,
        _ => 12,
    }
}
