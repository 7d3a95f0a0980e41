//! Writes a count of seconds as a date.

/// 0000-01-01T00:00:00Z
pub const FIRST: i64 = -62_167_219_200;

/// 9999-12-31T23:59:59Z
pub const LAST: i64 = 253_402_300_799;

/// Days in 400 years.
const DAYS_IN_AN_ERA: i64 = 146_097;

/// Days from 0000-03-01 to 1970-01-01.
const DAYS_BEFORE_1970: i64 = 719_468;

/// The date; a count before the first or after the last one is taken for that one.
pub fn written(seconds: i64) -> String {
    let seconds = seconds.clamp(FIRST, LAST);
    let (days, second) = (seconds.div_euclid(86_400), seconds.rem_euclid(86_400));
    let (year, month, day) = civil(days);
    let (hour, minute) = (second / 3_600, second / 60 % 60);
    format!(
        "{year:04}-{month:02}-{day:02}T{hour:02}:{minute:02}:{:02}Z",
        second % 60
    )
}

/// Year, month and day. Counted in years that begin with March, a leap day is the last of its year.
fn civil(days: i64) -> (i64, i64, i64) {
    let days = days + DAYS_BEFORE_1970;
    let (era, day_of_era) = (days.div_euclid(DAYS_IN_AN_ERA), days.rem_euclid(DAYS_IN_AN_ERA));
    let leap_days = day_of_era / 1_460 - day_of_era / 36_524 + day_of_era / 146_096;
    let year_of_era = (day_of_era - leap_days) / 365;
    let day_of_year = day_of_era - (365 * year_of_era + year_of_era / 4 - year_of_era / 100);
    let march_month = (5 * day_of_year + 2) / 153;
    let day = day_of_year - (153 * march_month + 2) / 5 + 1;
    let month = if march_month < 10 {
        march_month + 3
    } else {
        march_month - 9
    };
    let year = era * 400 + year_of_era + i64::from(month <= 2);
    (year, month, day)
}

#[cfg(test)]
mod tests {
    use super::{FIRST, LAST, written};

    #[test]
    fn every_day_comes_back() {
        let step = 86_400 - 7;
        let mut seconds = FIRST;
        while seconds <= LAST {
            let date = written(seconds);
            assert_eq!(paper::date::seconds(date.as_bytes()), Some(seconds), "{date}");
            seconds += step;
        }
        assert_eq!(written(LAST), "9999-12-31T23:59:59Z");
        assert_eq!(written(i64::MAX), "9999-12-31T23:59:59Z");
        assert_eq!(written(i64::MIN), "0000-01-01T00:00:00Z");
    }
}
