//! "Dates": `YYYY-MM-DDTHH:MM:SSZ` to the count of seconds from 1970-01-01T00:00:00Z.
//!
//! Nothing is divided here. A table, filled by counting from year to year, holds the day on which each year begins;
//! the days of the months before are added up from their lengths.

use std::sync::LazyLock;

/// "exactly 20 bytes": a `#` stands for a digit, every other byte for itself.
const FORM: &[u8; 20] = b"####-##-##T##:##:##Z";

/// "years 0000 to 9999"
const YEARS: usize = 10_000;

/// The year whose first day is day 0.
const YEAR_OF_DAY_ZERO: usize = 1970;

/// For every year the number of its first day, counted from 1970-01-01, below zero before it.
static FIRST_DAYS: LazyLock<Vec<i64>> = LazyLock::new(count_first_days);

/// The seconds from 1970-01-01T00:00:00Z to the date written, "a count below zero" before 1970; `None` if the bytes are
/// not a date.
pub fn seconds(written: &[u8]) -> Option<i64> {
    if !has_form(written) {
        return None;
    }
    let year = number(&written[0..4]);
    let month = number(&written[5..7]);
    let day = number(&written[8..10]);
    let days = day_number(year, month, day)?;
    let hour = within(number(&written[11..13]), 23)?;
    let minute = within(number(&written[14..16]), 59)?;
    let second = within(number(&written[17..19]), 59)?;
    Some(((days * 24 + hour) * 60 + minute) * 60 + second)
}

/// Whether the bytes have the outer form, whatever the numbers.
fn has_form(written: &[u8]) -> bool {
    written.len() == FORM.len()
        && written.iter().zip(FORM).all(|(byte, form)| match form {
            b'#' => byte.is_ascii_digit(),
            _ => byte == form,
        })
}

/// The number that decimal digits write.
fn number(digits: &[u8]) -> usize {
    digits
        .iter()
        .fold(0, |number, digit| number * 10 + usize::from(digit - b'0'))
}

/// "hours 00 to 23, minutes and seconds 00 to 59"
fn within(number: usize, highest: i64) -> Option<i64> {
    let number = number as i64;
    (number <= highest).then_some(number)
}

/// The days from 1970-01-01 to a day; `None` if the calendar has no such day.
fn day_number(year: usize, month: usize, day: usize) -> Option<i64> {
    let lengths = month_lengths(year);
    let length = *lengths.get(month.checked_sub(1)?)?;
    if day < 1 || day > length {
        return None;
    }
    let days_before: usize = lengths[..month - 1].iter().sum::<usize>() + day - 1;
    Some(FIRST_DAYS[year] + days_before as i64)
}

/// The lengths of the months of a year, January first.
fn month_lengths(year: usize) -> [usize; 12] {
    let february = if is_leap(year) { 29 } else { 28 };
    [31, february, 31, 30, 31, 30, 31, 31, 30, 31, 30, 31]
}

/// "Gregorian rules throughout": every fourth year is a leap year, but of the full centuries only every fourth.
fn is_leap(year: usize) -> bool {
    let is_century = year.is_multiple_of(100);
    year.is_multiple_of(if is_century { 400 } else { 4 })
}

/// Counts from year to year, from 0000 on, and then shifts the count so that 1970 begins with day 0.
fn count_first_days() -> Vec<i64> {
    let mut first_days = Vec::with_capacity(YEARS);
    let mut first_day = 0;
    for year in 0..YEARS {
        first_days.push(first_day);
        first_day += month_lengths(year).iter().sum::<usize>() as i64;
    }
    let day_zero = first_days[YEAR_OF_DAY_ZERO];
    first_days.iter().map(|day| day - day_zero).collect()
}

#[cfg(test)]
mod tests {
    use super::seconds;

    #[test]
    fn examples_of_the_document() {
        assert_eq!(seconds(b"1985-10-21T01:21:00Z"), Some(498_705_660));
        assert_eq!(seconds(b"2030-01-01T00:00:00Z"), Some(1_893_456_000));
        assert_eq!(seconds(b"1969-12-31T23:59:59Z"), Some(-1));
        assert_eq!(seconds(b"2000-02-29T00:00:00Z"), Some(951_782_400));
        assert_eq!(seconds(b"1900-03-01T00:00:00Z"), Some(-2_203_891_200));
        assert_eq!(seconds(b"1900-02-29T00:00:00Z"), None);
    }

    #[test]
    fn first_and_last_second() {
        assert_eq!(seconds(b"1970-01-01T00:00:00Z"), Some(0));
        assert_eq!(seconds(b"0000-01-01T00:00:00Z"), Some(-62_167_219_200));
        assert_eq!(seconds(b"9999-12-31T23:59:59Z"), Some(253_402_300_799));
    }

    #[test]
    fn leap_days() {
        for sound in ["0000-02-29", "0004-02-29", "1600-02-29", "2024-02-29"] {
            assert!(seconds(format!("{sound}T00:00:00Z").as_bytes()).is_some(), "{sound}");
        }
        for broken in ["0100-02-29", "2023-02-29", "2100-02-29", "2024-02-30"] {
            assert_eq!(seconds(format!("{broken}T00:00:00Z").as_bytes()), None, "{broken}");
        }
    }

    #[test]
    fn numbers_out_of_range() {
        for broken in [
            "2024-00-01T00:00:00Z",
            "2024-13-01T00:00:00Z",
            "2024-01-00T00:00:00Z",
            "2024-01-32T00:00:00Z",
            "2024-04-31T00:00:00Z",
            "2024-01-01T24:00:00Z",
            "2024-01-01T00:60:00Z",
            "2024-01-01T00:00:60Z",
        ] {
            assert_eq!(seconds(broken.as_bytes()), None, "{broken}");
        }
    }

    #[test]
    fn broken_forms() {
        for broken in [
            "",
            "2024-01-01",
            "2024-01-01T00:00:00",
            "2024-01-01T00:00:00Z ",
            " 2024-01-01T00:00:00Z",
            "2024-01-01t00:00:00Z",
            "2024-01-01T00:00:00z",
            "2024-01-01 00:00:00Z",
            "2024/01/01T00:00:00Z",
            "-024-01-01T00:00:00Z",
            "2024-1-001T00:00:00Z",
            "2024-01-01T00:00:0:Z",
        ] {
            assert_eq!(seconds(broken.as_bytes()), None, "{broken}");
        }
    }
}
