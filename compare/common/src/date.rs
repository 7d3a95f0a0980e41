//! "Dates" (01): `YYYY-MM-DDTHH:MM:SSZ` as seconds from 1970-01-01T00:00:00Z.

/// Days from 0000-03-01 to 1970-01-01.
const DAYS_TO_1970: i64 = 719_468;

/// The count of seconds, below zero before 1970; `None` if the bytes are not a date.
pub fn seconds(date: &[u8]) -> Option<i64> {
    let &[
        y1,
        y2,
        y3,
        y4,
        b'-',
        m1,
        m2,
        b'-',
        d1,
        d2,
        b'T',
        h1,
        h2,
        b':',
        i1,
        i2,
        b':',
        s1,
        s2,
        b'Z',
    ] = date
    else {
        return None;
    };
    let year = two_digits(y1, y2)? * 100 + two_digits(y3, y4)?;
    let (month, day) = (two_digits(m1, m2)?, two_digits(d1, d2)?);
    let (hour, minute, second) = (two_digits(h1, h2)?, two_digits(i1, i2)?, two_digits(s1, s2)?);
    let exists = (1..=12).contains(&month) && (1..=days_in(year, month)).contains(&day);
    if !exists || hour > 23 || minute > 59 || second > 59 {
        return None;
    }
    Some(((days_from_1970(year, month, day) * 24 + hour) * 60 + minute) * 60 + second)
}

fn two_digits(tens: u8, ones: u8) -> Option<i64> {
    let is_number = tens.is_ascii_digit() && ones.is_ascii_digit();
    is_number.then(|| i64::from(tens - b'0') * 10 + i64::from(ones - b'0'))
}

fn days_in(year: i64, month: i64) -> i64 {
    match month {
        2 if is_leap(year) => 29,
        2 => 28,
        4 | 6 | 9 | 11 => 30,
        _ => 31,
    }
}

/// "Gregorian rules throughout"
fn is_leap(year: i64) -> bool {
    year % 4 == 0 && (year % 100 != 0 || year % 400 == 0)
}

/// Counted in years that begin with March, so that a leap day is the last of its year.
fn days_from_1970(year: i64, month: i64, day: i64) -> i64 {
    let (year, month) = if month > 2 {
        (year, month - 3)
    } else {
        (year - 1, month + 9)
    };
    let leap_days = year.div_euclid(4) - year.div_euclid(100) + year.div_euclid(400);
    let day_of_year = (153 * month + 2) / 5 + day - 1;
    year * 365 + leap_days + day_of_year - DAYS_TO_1970
}

#[cfg(test)]
mod tests {
    use super::seconds;

    #[test]
    fn examples_of_01() {
        assert_eq!(seconds(b"1985-10-21T01:21:00Z"), Some(498_705_660));
        assert_eq!(seconds(b"2030-01-01T00:00:00Z"), Some(1_893_456_000));
        assert_eq!(seconds(b"1969-12-31T23:59:59Z"), Some(-1));
        assert_eq!(seconds(b"2000-02-29T00:00:00Z"), Some(951_782_400));
        assert_eq!(seconds(b"1900-03-01T00:00:00Z"), Some(-2_203_891_200));
        assert_eq!(seconds(b"1900-02-29T00:00:00Z"), None);
    }
}
