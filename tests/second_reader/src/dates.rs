//! The creation date: its fixed form and the calendar.

/// "`#creationDate YYYY-MM-DDTHH:MM:SSZ`, a real Gregorian date (years 0000 to
/// 9999), hour 0 to 23, minute and second 0 to 59." and "Section 2.2.2 demands
/// the Z".
pub fn is_creation_date(text: &[u8]) -> bool {
    has_the_form(text)
        && is_day_of_the_calendar(value(&text[0..4]), value(&text[5..7]), value(&text[8..10]))
        && value(&text[11..13]) <= 23
        && value(&text[14..16]) <= 59
        && value(&text[17..19]) <= 59
}

/// A `0` in the pattern stands for any digit; every other byte for itself.
fn has_the_form(text: &[u8]) -> bool {
    let pattern = b"0000-00-00T00:00:00Z";
    text.len() == pattern.len()
        && text.iter().zip(pattern).all(|(&byte, &wanted)| {
            if wanted == b'0' {
                byte.is_ascii_digit()
            } else {
                byte == wanted
            }
        })
}

fn value(digits: &[u8]) -> u32 {
    digits.iter().fold(0, |sum, &digit| sum * 10 + u32::from(digit - b'0'))
}

fn is_day_of_the_calendar(year: u32, month: u32, day: u32) -> bool {
    (1..=12).contains(&month) && (1..=days_of_month(year, month)).contains(&day)
}

fn days_of_month(year: u32, month: u32) -> u32 {
    match month {
        2 if is_leap_year(year) => 29,
        2 => 28,
        4 | 6 | 9 | 11 => 30,
        _ => 31,
    }
}

/// The Gregorian rule, which year 0000 follows too: it divides by 400.
fn is_leap_year(year: u32) -> bool {
    year % 400 == 0 || (year % 4 == 0 && year % 100 != 0)
}

#[cfg(test)]
mod tests {
    use super::*;

    #[test]
    fn real_dates() {
        for date in [
            "2012-09-02T16:40:30Z",
            "0000-02-29T00:00:00Z",
            "2000-02-29T23:59:59Z",
            "2024-02-29T12:00:00Z",
            "9999-12-31T23:59:59Z",
            "0001-01-01T00:00:00Z",
        ] {
            assert!(is_creation_date(date.as_bytes()), "{date}");
        }
    }

    #[test]
    fn days_and_hours_that_do_not_exist() {
        for date in [
            "1900-02-29T00:00:00Z",
            "2023-02-29T00:00:00Z",
            "2023-04-31T00:00:00Z",
            "2023-00-10T00:00:00Z",
            "2023-13-10T00:00:00Z",
            "2023-01-00T00:00:00Z",
            "2023-01-32T00:00:00Z",
            "2023-01-10T24:00:00Z",
            "2023-01-10T00:60:00Z",
            "2023-01-10T00:00:60Z",
        ] {
            assert!(!is_creation_date(date.as_bytes()), "{date}");
        }
    }

    #[test]
    fn other_forms() {
        for date in [
            "",
            "2012-08-31T15:53:00",
            "2012-08-31T15:53:00z",
            "2012-08-31 15:53:00Z",
            "2012-08-31T15:53:00ZZ",
            "2012-08-31T15:53:00+00:00",
            "2012-8-31T15:53:00Z",
            "2012/08/31T15:53:00Z",
            "-012-08-31T15:53:00Z",
        ] {
            assert!(!is_creation_date(date.as_bytes()), "{date}");
        }
    }
}
