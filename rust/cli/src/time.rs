//! Ticks at the command's edge: milliseconds from the start of 2020 in UTC, written as RFC 3339. Unix time in
//! milliseconds is above the store's last tick, 2^40 - 1; counted from 2020 it fits until November 2054.
use std::time::{SystemTime, UNIX_EPOCH};
use zolvortug::Tick;

/// The year whose first moment is tick 0, and the seconds from 1970 to it.
const FIRST_YEAR: u64 = 2020;
const FIRST_SECOND: u128 = 1_577_836_800;
/// The last tick that the store takes.
pub const LAST: Tick = Tick((1 << 40) - 1);

const DAY: u64 = 24 * HOUR;
const HOUR: u64 = 60 * MINUTE;
const MINUTE: u64 = 60 * SECOND;
const SECOND: u64 = 1000;

/// The system's clock; tick 0 where it stands before 2020.
pub fn system() -> Tick {
    let since = SystemTime::now()
        .duration_since(UNIX_EPOCH)
        .map_or(0, |d| d.as_millis());
    Tick(since.saturating_sub(1000 * FIRST_SECOND) as u64)
}

fn days_of_year(year: u64) -> u64 {
    let leap = year.is_multiple_of(4) && (!year.is_multiple_of(100) || year.is_multiple_of(400));
    if leap {
        366
    } else {
        365
    }
}

fn days_of_month(year: u64, month: u64) -> u64 {
    match month {
        2 => days_of_year(year) - 337,
        4 | 6 | 9 | 11 => 30,
        _ => 31,
    }
}

/// A tick as RFC 3339, in UTC.
pub fn shown(tick: Tick) -> String {
    if tick > LAST {
        return format!("tick {}", tick.0);
    }
    let (mut year, mut month, mut day) = (FIRST_YEAR, 1, tick.0 / DAY);
    while day >= days_of_year(year) {
        day -= days_of_year(year);
        year += 1;
    }
    while day >= days_of_month(year, month) {
        day -= days_of_month(year, month);
        month += 1;
    }
    let t = tick.0 % DAY;
    let (hour, minute, second, rest) = (t / HOUR, t % HOUR / MINUTE, t % MINUTE / SECOND, t % SECOND);
    format!(
        "{year:04}-{month:02}-{:02}T{hour:02}:{minute:02}:{second:02}.{rest:03}Z",
        day + 1
    )
}

/// A time as a person writes it: RFC 3339, or a number of ticks.
pub fn moment(text: &str) -> Result<Tick, String> {
    let number = text
        .bytes()
        .all(|c| c.is_ascii_digit())
        .then(|| text.parse().ok())
        .flatten();
    number.map_or_else(|| rfc3339(text), |ticks| Ok(Tick(ticks)))
}

/// An expiry: a moment, a span from now such as +30d or +250ms, or never, which is the last tick.
pub fn expiry(text: &str, now: Tick) -> Result<Tick, String> {
    match text.strip_prefix('+') {
        Some(given) => span(given).map(|s| Tick(now.0.saturating_add(s))),
        None if text == "never" => Ok(LAST),
        None => moment(text),
    }
}

fn span(text: &str) -> Result<u64, String> {
    let wrong = || format!("'+{text}' is no span of time: write +30d, +12h, +5m, +10s or +250ms");
    let unit_at = text.find(|c: char| !c.is_ascii_digit()).ok_or_else(wrong)?;
    let (number, unit) = text.split_at(unit_at);
    let ticks = match unit {
        "d" => DAY,
        "h" => HOUR,
        "m" => MINUTE,
        "s" => SECOND,
        "ms" => 1,
        _ => return Err(wrong()),
    };
    let number: u64 = number.parse().map_err(|_| wrong())?;
    Ok(number.saturating_mul(ticks))
}

fn rfc3339(text: &str) -> Result<Tick, String> {
    let wrong = || format!("'{text}' is no time: write 2026-11-16T02:12:53Z, or a number of ticks");
    let early = || format!("'{text}' is before {FIRST_YEAR}, where ticks begin");
    let (date, rest) = text.split_at_checked(10).ok_or_else(wrong)?;
    let (clock, rest) = rest
        .strip_prefix(['T', 't', ' '])
        .and_then(|r| r.split_at_checked(8))
        .ok_or_else(wrong)?;
    let (fraction, zone) = rest.split_at(rest.find(['Z', 'z', '+', '-']).ok_or_else(wrong)?);
    let [year, month, day] = numbers(date, '-', [4, 2, 2]).ok_or_else(wrong)?;
    let [hour, minute, second] = numbers(clock, ':', [2, 2, 2]).ok_or_else(wrong)?;
    if !(1..=12).contains(&month) || day == 0 || day > days_of_month(year, month) || hour > 23 || minute > 59 {
        return Err(wrong());
    }
    if second > 59 {
        return Err(format!("'{text}': ticks count no leap seconds"));
    }
    if year + 1 < FIRST_YEAR {
        return Err(early());
    }
    let part = millis(fraction).ok_or_else(wrong)?;
    let days = (FIRST_YEAR - 1..year).map(days_of_year).sum::<u64>()
        + (1..month).map(|m| days_of_month(year, m)).sum::<u64>()
        + (day - 1);
    let ticks = days * DAY + hour * HOUR + minute * MINUTE + second * SECOND + part;
    let before = (days_of_year(FIRST_YEAR - 1) * DAY) as i64 + offset(zone).ok_or_else(wrong)?;
    ticks.checked_add_signed(-before).map(Tick).ok_or_else(early)
}

/// Three numbers of so many digits each.
fn numbers(text: &str, between: char, lengths: [usize; 3]) -> Option<[u64; 3]> {
    let parts: Vec<&str> = text.split(between).collect();
    let mut read = [0; 3];
    if parts.len() != 3 {
        return None;
    }
    for ((number, part), length) in read.iter_mut().zip(parts).zip(lengths) {
        *number = digits(part, length)?;
    }
    Some(read)
}

/// The number that so many digits spell.
fn digits(text: &str, length: usize) -> Option<u64> {
    (text.len() == length && is_digits(text)).then(|| text.parse().ok())?
}

fn is_digits(text: &str) -> bool {
    !text.is_empty() && text.bytes().all(|c| c.is_ascii_digit())
}

/// Milliseconds of '', '.5', '.123'; what is below a millisecond is cut off.
fn millis(fraction: &str) -> Option<u64> {
    match fraction.strip_prefix('.') {
        None => fraction.is_empty().then_some(0),
        Some(part) if is_digits(part) => format!("{part:0<3}")[..3].parse().ok(),
        Some(_) => None,
    }
}

/// Ticks by which a zone is ahead of UTC: Z, +01:00, -05:30.
fn offset(zone: &str) -> Option<i64> {
    let (sign, rest) = match zone.split_at(1) {
        ("Z" | "z", "") => return Some(0),
        ("+", rest) => (1, rest),
        ("-", rest) => (-1, rest),
        _ => return None,
    };
    let (hours, minutes) = rest.split_once(':')?;
    let (hours, minutes) = (
        digits(hours, 2).filter(|h| *h < 24)?,
        digits(minutes, 2).filter(|m| *m < 60)?,
    );
    Some(sign * (hours * HOUR + minutes * MINUTE) as i64)
}

#[cfg(test)]
mod tests {
    use super::*;

    #[test]
    fn written_and_read() {
        for (tick, text) in [
            (0, "2020-01-01T00:00:00.000Z"),
            (1, "2020-01-01T00:00:00.001Z"),
            (59 * DAY, "2020-02-29T00:00:00.000Z"),
            (366 * DAY - 1, "2020-12-31T23:59:59.999Z"),
            (366 * DAY, "2021-01-01T00:00:00.000Z"),
            (1_796_264_000_123 - 1_577_836_800_000, "2026-12-03T02:13:20.123Z"),
            (LAST.0, "2054-11-03T19:53:47.775Z"),
        ] {
            assert_eq!(shown(Tick(tick)), text);
            assert_eq!(moment(text), Ok(Tick(tick)));
        }
        for day in 0..LAST.0 / DAY {
            assert_eq!(moment(&shown(Tick(day * DAY + day))), Ok(Tick(day * DAY + day)));
        }
    }

    #[test]
    fn other_forms() {
        for (text, tick) in [
            ("1500", 1500),
            ("2020-01-01T00:00:01Z", 1000),
            ("2020-01-01t00:00:01.5z", 1500),
            ("2020-01-01 01:00:00.0019+01:00", 1),
            ("2019-12-31T23:59:59Z", u64::MAX),
            ("2020-01-01T00:00:00+00:01", u64::MAX),
            ("2020-01-01T00:00:00-00:01", MINUTE),
            ("2021-02-29T00:00:00Z", u64::MAX),
            ("2020-13-01T00:00:00Z", u64::MAX),
            ("2020-00-01T00:00:00Z", u64::MAX),
            ("2020-01-00T00:00:00Z", u64::MAX),
            ("2020-01-01T24:00:00Z", u64::MAX),
            ("2020-01-01T00:60:00Z", u64::MAX),
            ("2020-06-30T23:59:60Z", u64::MAX),
            ("2020-01-01T00:00:00", u64::MAX),
            ("2020-01-01T00:00:00.Z", u64::MAX),
            ("2020-01-01T00:00:00+24:00", u64::MAX),
            ("2020-01-01T00:00:00Z01:00", u64::MAX),
            ("2019-12-31T23:30:00-01:00", 30 * MINUTE),
            ("2018-12-31T23:30:00-01:00", u64::MAX),
            ("2020-01-01T00:00:00.0012345678901234567890123Z", 1),
            ("2020-01-01T00:00:00é", u64::MAX),
            ("2020-01-01", u64::MAX),
            ("tomorrow", u64::MAX),
            ("-5", u64::MAX),
            ("", u64::MAX),
        ] {
            assert_eq!(moment(text).map_or(u64::MAX, |t| t.0), tick, "{text}");
        }
    }

    #[test]
    fn expiries() {
        for (text, tick) in [
            ("+0ms", 70),
            ("+250ms", 320),
            ("+10s", 10_070),
            ("+5m", 300_070),
            ("+12h", 43_200_070),
            ("+30d", 2_592_000_070),
            ("+99999999999999999999d", u64::MAX),
            ("+18446744073709551615d", u64::MAX),
            ("never", LAST.0),
            ("7", 7),
        ] {
            assert_eq!(expiry(text, Tick(70)).map_or(u64::MAX, |t| t.0), tick, "{text}");
        }
        for text in ["+", "+5", "+d", "+5w", "+5 d", "forever"] {
            assert!(expiry(text, Tick(70)).is_err(), "{text}");
        }
    }
}
