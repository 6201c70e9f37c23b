//! The forms and bounds of values. Each answers the value or a refusal's number: 61 to 67 for the form, then 7 for the
//! bound. 68 is the components' own, which know their defaults.

use crate::refusal::{BITS, BOOLEAN, INTEGER, NULL, RANGE, TEXT, TIME, TRAILING};

/// "BOOLEAN is 00 or FF."
pub fn boolean(contents: &[u8]) -> Result<bool, u32> {
    match contents {
        [0x00] => Ok(false),
        [0xFF] => Ok(true),
        _ => Err(BOOLEAN),
    }
}

/// "The integer reader should give a signed value and every component should then state its own bounds."
pub fn integer(contents: &[u8], low: i64, high: i64) -> Result<i64, u32> {
    let value = signed(contents)?;
    if value < low || value > high {
        Err(RANGE)
    } else {
        Ok(value)
    }
}

/// "INTEGER and ENUMERATED are shortest." A number that is too long for 64 bits ends up near their end, far from all
/// bounds.
fn signed(contents: &[u8]) -> Result<i64, u32> {
    match contents {
        [] => Err(INTEGER),
        [0x00, second, ..] if *second < 0x80 => Err(INTEGER),
        [0xFF, second, ..] if *second >= 0x80 => Err(INTEGER),
        [first, rest @ ..] => {
            let highest = i64::from(*first as i8);
            Ok(rest.iter().fold(highest, |value, byte| value.saturating_mul(256).saturating_add(i64::from(*byte))))
        }
    }
}

/// "Named-bit strings: unused bits zero, trailing zero bits removed (none set is 03 01 00), at most 32 bits;
/// named bit i becomes 2^i in the book."
pub fn flags(contents: &[u8]) -> Result<u32, u32> {
    let (unused, bytes) = contents.split_first().ok_or(BITS)?;
    let Some(last) = bytes.last() else {
        return if *unused == 0 { Ok(0) } else { Err(BITS) };
    };
    if *unused > 7 {
        return Err(BITS);
    }
    if *last != (*last >> unused) << unused {
        return Err(BITS);
    }
    if (*last >> unused) & 1 == 0 {
        return Err(TRAILING);
    }
    if bytes.len() * 8 - usize::from(*unused) > 32 {
        return Err(RANGE);
    }
    let mut value = 0;
    for bit in 0..bytes.len() * 8 {
        if bytes[bit / 8] & (0x80 >> (bit % 8)) != 0 {
            value |= 1 << bit;
        }
    }
    Ok(value)
}

/// "UTF8String is well formed." and "255 characters", whatever their widths
pub fn text(contents: &[u8]) -> Result<(), u32> {
    let text = std::str::from_utf8(contents).map_err(|_| TEXT)?;
    if text.chars().count() > 255 {
        Err(RANGE)
    } else {
        Ok(())
    }
}

/// The length of an octet string.
pub fn octets(contents: &[u8], low: usize, high: usize) -> Result<(), u32> {
    if contents.len() < low || contents.len() > high {
        Err(RANGE)
    } else {
        Ok(())
    }
}

/// "NULL is empty."
pub fn null(contents: &[u8]) -> Result<(), u32> {
    if contents.is_empty() {
        Ok(())
    } else {
        Err(NULL)
    }
}

/// "Times are YYYYMMDDhhmmssZ, Gregorian, hours to 23, minutes and seconds to 59."
pub fn time(contents: &[u8]) -> Result<(), u32> {
    if is_time(contents) {
        Ok(())
    } else {
        Err(TIME)
    }
}

fn is_time(contents: &[u8]) -> bool {
    if contents.len() != 15 || contents[14] != b'Z' || !contents[..14].iter().all(u8::is_ascii_digit) {
        return false;
    }
    let number = |digits: &[u8]| digits.iter().fold(0u32, |n, d| n * 10 + u32::from(d - b'0'));
    let year = number(&contents[0..4]);
    let month = number(&contents[4..6]);
    let day = number(&contents[6..8]);
    (1..=12).contains(&month)
        && (1..=days(year, month)).contains(&day)
        && number(&contents[8..10]) <= 23
        && number(&contents[10..12]) <= 59
        && number(&contents[12..14]) <= 59
}

/// The days of a month, Gregorian; year 0 is a leap year.
pub fn days(year: u32, month: u32) -> u32 {
    match month {
        2 if is_leap(year) => 29,
        2 => 28,
        4 | 6 | 9 | 11 => 30,
        _ => 31,
    }
}

fn is_leap(year: u32) -> bool {
    year.is_multiple_of(400) || (year.is_multiple_of(4) && !year.is_multiple_of(100))
}
