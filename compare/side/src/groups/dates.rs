//! `date BYTES`: what count of seconds is it?

// All edits are of one type, also those that leave the length as it is.
#![allow(clippy::ptr_arg)]

use crate::calls::Call;
use crate::compare::{Case, Cases, Group};
use crate::random::Random;

/// How many dates are damaged.
const DAMAGED: usize = 400_000;

/// 10,000 years of 365.2425 days each.
const DAYS: usize = 3_652_425;

/// The number of 0000-01-01, counted from 1970-01-01.
const FIRST_DAY: i64 = -719_528;

/// The groups of this call.
pub fn groups() -> Vec<Group> {
    vec![
        Group {
            name: "dates, by name",
            calls: &["date"],
            cases: |_| by_name(),
            least: 14,
            shares: &[("date SECONDS", 10), ("date bad", 10)],
            complete: &[],
            renewed: false,
        },
        Group {
            name: "dates, every day",
            calls: &["date"],
            cases: every_day,
            least: DAYS,
            shares: &[("date SECONDS", 100)],
            complete: &[],
            renewed: false,
        },
        Group {
            name: "dates, every field",
            calls: &["date"],
            cases: |_| every_field(),
            least: 170_000,
            shares: &[("date SECONDS", 1), ("date bad", 10)],
            complete: &[],
            renewed: false,
        },
        Group {
            name: "dates, damaged",
            calls: &["date"],
            cases: damaged,
            least: DAMAGED,
            shares: &[("date SECONDS", 10), ("date bad", 10)],
            complete: &[],
            renewed: true,
        },
    ]
}

/// The dates that document 01 speaks of, and the edges of its ranges.
fn by_name() -> Cases {
    let dates = [
        ("1985-10-21T01:21:00Z", "date 498705660"),
        ("2030-01-01T00:00:00Z", "date 1893456000"),
        ("1969-12-31T23:59:59Z", "date -1"),
        ("2000-02-29T00:00:00Z", "date 951782400"),
        ("1900-03-01T00:00:00Z", "date -2203891200"),
        ("1900-02-29T00:00:00Z", "date bad"),
        ("1970-01-01T00:00:00Z", "date 0"),
        ("0000-01-01T00:00:00Z", "date -62167219200"),
        ("9999-12-31T23:59:59Z", "date 253402300799"),
        ("", "date bad"),
        ("2030-01-01T24:00:00Z", "date bad"),
        ("2030-01-01T00:60:00Z", "date bad"),
        ("2030-01-01T00:00:60Z", "date bad"),
        ("2030-01-01T00:00:00", "date bad"),
    ];
    let stated = |(date, answer): (&str, &str)| Case::stated(Call::Date(date.into()), answer);
    Box::new(dates.map(stated).into_iter())
}

/// A date as its six numbers, which need not be in range.
#[derive(Clone, Copy)]
struct Date {
    year: usize,
    month: usize,
    day: usize,
    hour: usize,
    minute: usize,
    second: usize,
}

impl Date {
    fn written(&self) -> Vec<u8> {
        let Date {
            year,
            month,
            day,
            hour,
            minute,
            second,
        } = self;
        format!("{year:04}-{month:02}-{day:02}T{hour:02}:{minute:02}:{second:02}Z").into_bytes()
    }

    fn open(&self) -> Case {
        Case::open(Call::Date(self.written()))
    }
}

/// Every day there is, at a second that varies. The days are numbered as they come, so the answer is known.
fn every_day(seed: u64) -> Cases {
    let mut random = Random::new(seed, "dates, every day");
    Box::new((FIRST_DAY..).zip(calendar()).map(move |(number, (year, month, day))| {
        let (hour, minute, second) = (random.below(24), random.below(60), random.below(60));
        let date = Date {
            year,
            month,
            day,
            hour,
            minute,
            second,
        };
        let seconds = number * 86_400 + (hour * 3_600 + minute * 60 + second) as i64;
        Case::stated(Call::Date(date.written()), format!("date {seconds}"))
    }))
}

/// The days of the Gregorian calendar, from 0000-01-01 to 9999-12-31.
fn calendar() -> impl Iterator<Item = (usize, usize, usize)> {
    (0..10_000)
        .flat_map(|year| (1..=12).flat_map(move |month| (1..=last_day(year, month)).map(move |day| (year, month, day))))
}

fn last_day(year: usize, month: usize) -> usize {
    match month {
        4 | 6 | 9 | 11 => 30,
        2 if year.is_multiple_of(400) => 29,
        2 if year.is_multiple_of(100) => 28,
        2 if year.is_multiple_of(4) => 29,
        2 => 28,
        _ => 31,
    }
}

/// Every month with every day, every hour, minute and second, written with two digits; and every byte at every place.
fn every_field() -> Cases {
    const YEARS: [usize; 14] = [0, 1, 4, 100, 400, 1900, 1969, 1970, 2000, 2023, 2024, 2100, 9996, 9999];
    let two_digits = || 0..100;
    let base = Date {
        year: 2024,
        month: 2,
        day: 29,
        hour: 12,
        minute: 34,
        second: 56,
    };
    let days = YEARS.into_iter().flat_map(move |year| {
        two_digits().flat_map(move |month| {
            two_digits().map(move |day| Date {
                year,
                month,
                day,
                ..base
            })
        })
    });
    let hours = two_digits().flat_map(move |hour| two_digits().map(move |minute| Date { hour, minute, ..base }));
    let seconds = two_digits().flat_map(move |minute| two_digits().map(move |second| Date { minute, second, ..base }));
    let years = (0..10_000).flat_map(move |year| [28, 29, 30].map(|day| Date { year, day, ..base }));
    let dates = days.chain(hours).chain(seconds).chain(years).map(|date| date.open());
    Box::new(dates.chain(every_byte(base.written())))
}

/// Every byte at every place, instead of the one there and in addition; and every length that is too short.
fn every_byte(date: Vec<u8>) -> impl Iterator<Item = Case> {
    let places = 0..=date.len();
    places.flat_map(move |place| {
        let mut spoilt: Vec<Vec<u8>> = vec![date[..place].to_vec()];
        for byte in 0..=255 {
            let (start, end) = date.split_at(place);
            spoilt.push([start, &[byte], end].concat());
            spoilt.push([start, &[byte], end.get(1..).unwrap_or(&[])].concat());
        }
        spoilt.into_iter().map(|bytes| Case::open(Call::Date(bytes)))
    })
}

/// Dates with numbers about the edges of their ranges, two thirds of them spoilt by one edit.
fn damaged(seed: u64) -> Cases {
    let mut random = Random::new(seed, "dates, damaged");
    Box::new((0..DAMAGED).map(move |number| {
        let mut bytes = any_date(&mut random).written();
        if number % 3 != 0 {
            random.pick(EDITS)(&mut bytes, &mut random);
        }
        Case::open(Call::Date(bytes))
    }))
}

/// A date that is mostly in range; each of its numbers may be just outside.
fn any_date(random: &mut Random) -> Date {
    Date {
        year: year(random),
        month: number(random, 1, 12),
        day: number(random, 1, 31),
        hour: number(random, 0, 23),
        minute: number(random, 0, 59),
        second: number(random, 0, 59),
    }
}

fn year(random: &mut Random) -> usize {
    match random.below(3) {
        0 => random.below(100) * 100,
        1 => random.between(1960, 2040),
        _ => random.below(10_000),
    }
}

/// A number from the range, often at its ends, seldom outside.
fn number(random: &mut Random, low: usize, high: usize) -> usize {
    match random.below(32) {
        0 => low.saturating_sub(1),
        1 => high + 1,
        2 => random.below(100),
        3..6 => low,
        6..9 => high,
        _ => random.between(low, high),
    }
}

/// One edit.
type Edit = fn(&mut Vec<u8>, &mut Random);

/// Every kind of edit; some leave a date a date.
const EDITS: &[Edit] = &[
    change_digit,
    change_digit,
    change_digit,
    change_byte,
    insert_byte,
    delete_byte,
    swap_neighbours,
    flip_bit,
    truncate,
    change_case,
    change_separator,
    write_other_digit,
    pad,
    other_zone,
];

fn digit(random: &mut Random) -> u8 {
    random.between(48, 57) as u8
}

fn change_digit(date: &mut Vec<u8>, random: &mut Random) {
    let places: Vec<usize> = (0..date.len()).filter(|&place| date[place].is_ascii_digit()).collect();
    date[random.pick(&places)] = digit(random);
}

fn change_byte(date: &mut Vec<u8>, random: &mut Random) {
    let place = random.below(date.len());
    date[place] = random.byte();
}

fn insert_byte(date: &mut Vec<u8>, random: &mut Random) {
    let byte = if random.one_in(2) { digit(random) } else { random.byte() };
    date.insert(random.below(date.len() + 1), byte);
}

fn delete_byte(date: &mut Vec<u8>, random: &mut Random) {
    date.remove(random.below(date.len()));
}

fn swap_neighbours(date: &mut Vec<u8>, random: &mut Random) {
    let place = random.below(date.len() - 1);
    date.swap(place, place + 1);
}

fn flip_bit(date: &mut Vec<u8>, random: &mut Random) {
    let place = random.below(date.len());
    date[place] ^= 1 << random.below(8);
}

fn truncate(date: &mut Vec<u8>, random: &mut Random) {
    date.truncate(random.below(date.len()));
}

fn change_case(date: &mut Vec<u8>, random: &mut Random) {
    let letter = if random.one_in(2) { b'T' } else { b'Z' };
    date.iter_mut()
        .filter(|byte| **byte == letter)
        .for_each(|byte| *byte = letter.to_ascii_lowercase());
}

fn change_separator(date: &mut Vec<u8>, random: &mut Random) {
    let places = [4, 7, 10, 13, 16, 19];
    date[random.pick(&places)] = random.pick(b"-:TZ/. ,+0");
}

/// Puts what some readers of numbers take, but what is no digit, in the place of one.
fn write_other_digit(date: &mut Vec<u8>, random: &mut Random) {
    let places = [0, 1, 5, 8, 9, 11, 14, 17, 18];
    date[random.pick(&places)] = random.pick(b" +-/:_a\0\xb2\xff");
}

/// Puts white space or a zero byte at one of the ends.
fn pad(date: &mut Vec<u8>, random: &mut Random) {
    let place = random.below(2) * date.len();
    date.insert(place, random.pick(b" \n\0"));
}

/// Fractions and zones that RFC 3339 knows and document 01 does not.
fn other_zone(date: &mut Vec<u8>, random: &mut Random) {
    let endings: [&[u8]; 6] = [b".0Z", b"+00:00", b"-00:00", b"+0000", b"", b"ZZ"];
    date.pop();
    date.extend_from_slice(random.pick(&endings));
}
