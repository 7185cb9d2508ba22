//! Times as notes have them: UTC, to the second, as 2026-11-16T11:50:00Z. Texts of this form stand in the order of time when they are sorted.

use std::time::{SystemTime, UNIX_EPOCH};

const DAY: u64 = 86_400;
/// From 1 March of the year 0, with which the arithmetic begins, to 1 January 1970.
const DAYS_TO_1970: u64 = 719_468;
/// Of 400 years, after which the calendar repeats itself.
const DAYS_OF_ERA: u64 = 146_097;

pub fn now() -> String {
    text(SystemTime::now().duration_since(UNIX_EPOCH).map_or(0, |since| since.as_secs()))
}

/// Of the seconds since 1970 began, leap seconds not counted.
pub fn text(seconds: u64) -> String {
    let (year, month, day) = civil(seconds / DAY);
    let of_day = seconds % DAY;
    let (hour, minute, second) = (of_day / 3600, of_day / 60 % 60, of_day % 60);
    format!("{year:04}-{month:02}-{day:02}T{hour:02}:{minute:02}:{second:02}Z")
}

/// The seconds of such a text; None for any other, as for a day that no calendar has.
pub fn seconds(given: &str) -> Option<u64> {
    let number = |from: usize, to: usize| given.get(from..to)?.parse::<u64>().ok();
    let days = days(number(0, 4)?, number(5, 7)?, number(8, 10)?)?;
    let found = days * DAY + number(11, 13)? * 3600 + number(14, 16)? * 60 + number(17, 19)?;
    (text(found) == given).then_some(found)
}

/// Year, month and day of a day since 1970. Years are counted from March on, so that a leap day is the last of its year; months then have 153 days in five.
fn civil(days: u64) -> (u64, u64, u64) {
    let days = days + DAYS_TO_1970;
    let (era, of_era) = (days / DAYS_OF_ERA, days % DAYS_OF_ERA);
    let year = (of_era - of_era / 1460 + of_era / 36_524 - of_era / 146_096) / 365;
    let of_year = of_era - days_before(year);
    let from_march = (5 * of_year + 2) / 153;
    let day = of_year - (153 * from_march + 2) / 5 + 1;
    let month = if from_march < 10 { from_march + 3 } else { from_march - 9 };
    (era * 400 + year + u64::from(month <= 2), month, day)
}

/// The other way round, from 1970 on. A day past its month's end is one of the next month.
fn days(year: u64, month: u64, day: u64) -> Option<u64> {
    if year < 1970 || !(1..=12).contains(&month) || !(1..=31).contains(&day) {
        return None;
    }
    let year = year - u64::from(month <= 2);
    let of_year = (153 * ((month + 9) % 12) + 2) / 5 + day - 1;
    Some(year / 400 * DAYS_OF_ERA + days_before(year % 400) + of_year - DAYS_TO_1970)
}

/// The days of an era before one of its years.
fn days_before(year: u64) -> u64 {
    365 * year + year / 4 - year / 100
}

#[cfg(test)]
mod tests {
    use super::*;

    /// The numbers are those of `date -u -d @SECONDS`.
    #[test]
    fn leap_days_and_ends_of_years_are_where_the_calendar_has_them() {
        let known = [
            (0, "1970-01-01T00:00:00Z"),
            (68_255_999, "1972-02-29T23:59:59Z"),
            (68_256_000, "1972-03-01T00:00:00Z"),
            (946_684_799, "1999-12-31T23:59:59Z"),
            (951_782_400, "2000-02-29T00:00:00Z"),
            (951_868_800, "2000-03-01T00:00:00Z"),
            (1_709_251_199, "2024-02-29T23:59:59Z"),
            (1_767_225_599, "2025-12-31T23:59:59Z"),
            (1_772_323_200, "2026-03-01T00:00:00Z"),
            (1_794_829_800, "2026-11-16T11:50:00Z"),
            (4_107_542_399, "2100-02-28T23:59:59Z"),
            (4_107_542_400, "2100-03-01T00:00:00Z"),
        ];
        for (number, written) in known {
            assert_eq!(text(number), written);
            assert_eq!(seconds(written), Some(number));
        }
    }

    #[test]
    fn every_day_of_five_centuries_reads_back_and_follows_the_one_before() {
        for day in 0..5 * 36_525 {
            let written = text(day * DAY);
            assert_eq!(seconds(&written), Some(day * DAY), "{written}");
            assert!(written < text((day + 1) * DAY), "{written}");
        }
    }

    #[test]
    fn what_is_no_time_is_none() {
        for given in [
            "",
            "yesterday",
            "2026-11-16",
            "2026-11-16 11:50:00",
            "2026-11-16T11:50:00+",
            "2026-02-29T00:00:00Z",
            "2100-02-29T00:00:00Z",
            "2026-13-01T00:00:00Z",
            "2026-04-31T00:00:00Z",
            "2026-00-10T00:00:00Z",
            "2026-11-16T24:00:00Z",
            "2026-11-16T11:60:00Z",
            "1969-12-31T23:59:59Z",
            "2026-11-16T11:50:00Z ",
            "äääääääääääää",
        ] {
            assert_eq!(seconds(given), None, "{given}");
        }
    }
}
