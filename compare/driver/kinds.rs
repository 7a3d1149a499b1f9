//! The five kinds: how the original reads each, and what its inputs are made of.

use std::panic::{catch_unwind, AssertUnwindSafe};
use winnow::combinator::{eof, terminated};
use winnow::error::InputError;
use winnow::Parser;
use winnow_datetime::types::{Date, DateTime, Duration, Offset, Time};
use winnow_datetime::{date, datetime, duration, offset, time};

/// What the original does with a text.
pub enum Outcome {
    Panicked,
    /// `B COUNT W WCOUNT RECORD`: what `answers` prints, without its verdict and a time's digits.
    Answered(String),
}

pub struct Kind {
    pub letter: char,
    pub name: &'static str,
    pub read: fn(&[u8]) -> Outcome,
    /// A text with one of these bytes is not compared.
    pub skip: &'static [u8],
    /// Nor is a text for which this holds: it has a number that is too wide for the original.
    pub wide: fn(&[u8]) -> bool,
    /// The bytes that the rules name, among the digits those next to a limit, and one that no rule
    /// names.
    pub alphabet: &'static [u8],
    /// Good texts and near misses, each going another way through the rules.
    pub spellings: &'static [&'static str],
    /// Patterns (see `inputs::fill`) that take each field across its limits.
    pub fields: &'static [&'static str],
    /// Patterns of every value of a field, and of every text of some length: too many for a
    /// sample.
    pub grown: &'static [&'static str],
}

#[rustfmt::skip]
pub static KINDS: [Kind; 5] = [
    Kind {
        letter: 'd',
        name: "date",
        read: |text| outcome(date::date, date::parse_date, date_words, text),
        skip: b"",
        wide: |_| false,
        alphabet: b"0123456789-WTx",
        spellings: &[
            "2015-11-02", "20151102", "2015-1102", "201511-02", "2015-11", "2015-11-32",
            "2015-11-2", "2015-13-01", "2015-W45-1", "2015-W451", "2015W45-1", "2015W451",
            "2015-W45", "2015W45", "2015-W458", "2015-W450", "2015-W52", "2015-W53", "2015-306",
            "2015306", "2015-366", "2015-367", "2015113", "2015114", "2015-4", "2015-000",
            "20151232", "20151301", "2015", "0099-01-01", "0100-01-01", "9999-12-31", "+2015-11-02",
            "-2015-11-02", "-0100-366", "+20151102", "-2015W457", "2015-02-30", "2015--11-02",
            "+-2015-11-02",
        ],
        fields: &[
            "009#-01-01", "010#-01-01", "2015-0#", "2015-1#", "2015-11-0#", "2015-11-3#",
            "20150#02", "20151#02", "2015110#", "2015113#", "2015-W0#", "2015W5#", "2015-W45-#",
            "2015W45#", "2015-00#", "2015-36#", "2015-37#", "201536#",
        ],
        grown: &[
            "####-01-01", "-####-W01", "2015-##-##", "2015-####", "2015####", "2015-W##-#",
            "2015-W####", "2015W##-#", "2015*****", "-2015*****", "2015-*****", "2015-W*****",
            "*****",
        ],
    },
    Kind {
        letter: 't',
        name: "time",
        read: |text| outcome(time::time, time::parse_time, time_words, text),
        skip: b"",
        wide: |_| false,
        alphabet: b"0123569:.,+-ZTx",
        spellings: &[
            "21:56:42", "215642", "21:5642", "2156:42", "21:56", "2156", "21", "T21:56:42", "T21",
            "TT21", "21:5", "21:6", "21:56:4", "21:56:60", "21:56:61", "24:00", "23:59:60", "21:60",
            "21-00:00", "21:56.5", "21:56,5", "2156.5", "21.5", "21:56:42.", "21:56:42.1",
            "21:56:42.123456789", "21:56:42.1234567891", "215642,000000001", "21:56:42.123+01:00",
            "21:56:42Z", "21:56-00:30", "21+01", "21+0130", "T215642.5-2359", "21:56:42 Z",
            "21:56:42z", "21::56", "21:56::42", "21:56:42.5.5",
        ],
        fields: &[
            "0#", "2#", "T2#", "21:0#", "21:5#", "21:6#", "215#", "216#", "21:56:0#", "21:56:6#",
            "21566#", "21:56.#", "21:56:42.12345678#", "21:56:42.99999999#9", "21+2#", "21-00:0#",
            "21-00:6#", "21-006#",
        ],
        grown: &[
            "##:##:##", "T######", "##:##.#", "21:56:42.######", "21:56:42-##:##", "21+####",
            "21*****", "T21****", "21:56*****", "21:56:42*****", "21:56:42.5*****", "21:56-0****",
            "*****",
        ],
    },
    Kind {
        letter: 'o',
        name: "offset",
        read: |text| outcome(offset::offset, offset::parse_offset, offset_words, text),
        skip: b"",
        wide: |_| false,
        alphabet: b"0123569+-:Zx",
        spellings: &[
            "", "Z", "ZZ", "z", "+01:00", "+0100", "+01", "-01:30", "-0130", "-01", "-00", "-00:00",
            "-0000", "-00:30", "-0030", "+00", "+00:00", "+0000", "+23:59", "-23:59", "-2359",
            "+24", "+24:00", "+01:60", "+0160", "+01:5", "+01:", "+015", "-00:0", "-00:01", "01:00",
            "+1:00", "+-01:00", "+01::00", "-12:34:56",
        ],
        fields: &[
            "+##", "-0#", "-2#", "+01:0#", "+01:5#", "+01:6#", "-01##", "-00:0#", "-000#", "-00:6#",
            "+00:0#", "-23:5#",
        ],
        grown: &["+##:##", "-##:##", "+####", "-####", "******", "+*****", "-00*****"],
    },
    Kind {
        letter: 's',
        name: "date-time",
        read: |text| outcome(datetime::datetime, datetime::parse_datetime, datetime_words, text),
        skip: b"",
        wide: |_| false,
        alphabet: b"0123569-W:T.,+Zx",
        spellings: &[
            "2015-11-02T21:56:42", "20151102T215642", "2015-11-02T21:56:4", "2015-11-02T21",
            "2015-11-02T24:00", "2015-11-02T21:56:42.123+01:00", "20151102T2156,5-0030",
            "2015-W45-1T21:56Z", "2015W45T21", "2015-306T21:56:60", "2015306T2156+01",
            "2015-11T21:56", "2015-11-32T21:56", "2015-1102T21:56", "2015-W458T21", "2015113T21",
            "2015-11-02TT21", "2015-11-02 21:56", "2015-11-0221:56", "2015-11-02T",
            "-2015-11-02T21:56", "2015-11-02T21-00:00", "+0100-12-31T23:59:60.1234567891-23:59",
            "0099-01-01T00", "2015-11-02t21:56",
        ],
        fields: &[
            "2015-1#T21", "2015-11-3#T21", "2015113#T21", "2015-W5#T21", "2015W45#T21",
            "2015-36#T21", "2015-11-02T2#", "2015-11-02T21:5#", "2015-11-02T21:6#",
            "20151102T21566#", "2015-11-02T21-0#", "2015-11-02T21:56-00:0#",
        ],
        grown: &[
            "2015-##-##T21:56", "2015####T2156", "2015-W##-#T21", "2015-###T21:56:##",
            "2015-11-02T######", "2015****T21:56", "2015-11-02*****", "2015-11-02T21*****",
            "2015W45*****", "2015-11-*****",
        ],
    },
    Kind {
        letter: 'p',
        name: "duration",
        read: |text| outcome(duration::duration, duration::parse_duration, duration_words, text),
        // How the original reads a part's fraction is not in the files at hand; see stand-ins.rs.
        skip: b",.",
        wide: tries_wide_run,
        alphabet: b"019PYMWDTHSx",
        spellings: &[
            "P1Y2M3DT4H5M6S", "P1Y2M3W4DT5H6M7S", "P1Y", "P2M", "P3W", "P4D", "PT5H", "PT6M",
            "PT7S", "P5H", "P7S", "P1D5M", "P1M5M", "P1W5M", "P2M3M4S", "P1M2MT3M", "P1YT", "P1YT5",
            "P1D2Y", "PT1S2M", "PT", "P", "", "P0Y", "PT0S", "P0000000000001Y", "P04294967295S",
            "P4294967295S", "P4294967296S", "P4294967296", "P1Y4294967296M", "P1DT4294967296H",
            "PT1S4294967296",
            "P4294967295Y4294967295M4294967295W4294967295DT4294967295H4294967295M4294967295S",
            "P136Y", "P137Y", "PT4294967295S", "P49710D6H28M15S", "P49710D6H28M16S", "P1Y2W3DT4H",
            "PT1HT2M", "P1YP1M", "1Y", "P-1Y", "P+1Y", "P1", "P1.5Y", "PT1,5S",
            "P18446744073709551616Y",
        ],
        fields: &[
            "P#Y", "P1Y#M", "PT#H", "PT1H#M", "P429496729#S", "P0429496729#S", "PT429496729#H",
            "P1Y2M3W429496729#D", "P13#Y", "P165#M", "P710#W", "P4971#D", "P119304#H",
            "PT7158278#M", "P49710DT#H", "P49710DT6H2#M", "P49710DT6H28M1#S",
        ],
        grown: &[
            "P####Y", "PT##H##M##S", "P##M##M", "P42949#####S", "P******", "P1Y*****", "PT*****",
            "*****", "P429496729***", "P1Y429496729**", "P1844674407370955161***",
        ],
    },
];

/// Whether a duration part is tried at a digit run above 4,294,967,295. The original panics there,
/// and we gave refusal 2 until W9, which has wider runs and compares none of them.
///
/// It is seen from the text alone. Behind the `P` stand runs, each with the letter of a part that
/// is still to come, and perhaps one `T`; a part is tried at the run behind each of these, but not
/// behind an `S`.
fn tries_wide_run(text: &[u8]) -> bool {
    let Some(mut rest) = text.strip_prefix(b"P") else {
        return false;
    };
    let mut to_come: &[u8] = b"YMWDTHMS";
    while !to_come.is_empty() {
        let digits = rest.iter().take_while(|byte| byte.is_ascii_digit()).count();
        let (run, behind) = rest.split_at(digits);
        if is_wide(run) {
            return true;
        }
        let place = |letter| to_come.iter().position(|byte| *byte == letter);
        match behind.first().and_then(|letter| place(*letter)) {
            // A `T` stands behind no run, every other letter behind one.
            Some(place) if run.is_empty() == (to_come[place] == b'T') => {
                (rest, to_come) = (&behind[1..], &to_come[place + 1..]);
            }
            _ => return false,
        }
    }
    false
}

fn is_wide(run: &[u8]) -> bool {
    let zeros = run.iter().take_while(|byte| **byte == b'0').count();
    let (number, limit): (&[u8], &[u8]) = (&run[zeros..], b"4294967295");
    (number.len(), number) > (limit.len(), limit)
}

/// What both of the original's readers make of a text. Where the text is UTF-8, `whole` is the
/// original's public function on strings; elsewhere it is that function's body on bytes.
fn outcome<'a, R: PartialEq>(
    beginning: impl Fn(&mut &'a [u8]) -> Result<R, InputError<&'a [u8]>> + Copy,
    whole: fn(&str) -> Result<R, InputError<&str>>,
    words: fn(&R) -> String,
    text: &'a [u8],
) -> Outcome {
    let length = text.len();
    let both = catch_unwind(AssertUnwindSafe(|| {
        let mut rest = text;
        let begun = beginning(&mut rest).ok();
        let all = match std::str::from_utf8(text) {
            Ok(string) => whole(string).ok(),
            Err(_) => terminated(beginning, eof).parse_next(&mut &*text).ok(),
        };
        (begun, length - rest.len(), all)
    }));
    Outcome::Answered(match both {
        Err(_) => return Outcome::Panicked,
        Ok((None, _, None)) => "1 0 1 0 -".to_string(),
        Ok((Some(record), count, None)) if count < length => {
            format!("0 {count} 3 {count} {}", words(&record))
        }
        Ok((Some(record), count, Some(same))) if count == length && record == same => {
            format!("0 {count} 0 {count} {}", words(&record))
        }
        Ok(_) => panic!(
            "the original's two readers part on \"{}\"",
            text.escape_ascii()
        ),
    })
}

fn date_words(date: &Date) -> String {
    match date {
        Date::YMD { year, month, day } => format!("ymd {year} {month} {day}"),
        Date::Week { year, week, day } => format!("week {year} {week} {day}"),
        Date::Ordinal { year, day } => format!("ordinal {year} {day}"),
    }
}

/// Hours, minutes, and minutes in all.
fn offset_numbers(offset: &Offset) -> (i32, i32, i32) {
    match offset {
        Offset::Fixed { hours, minutes, .. } => (*hours, *minutes, 60 * hours + minutes),
        Offset::LocalUnknown { .. } => panic!("the original's readers never give this"),
    }
}

fn offset_words(offset: &Offset) -> String {
    let (hours, minutes, total) = offset_numbers(offset);
    format!("offset {hours} {minutes} {total}")
}

fn time_words(t: &Time) -> String {
    let offset = match t.offset.as_ref().map(offset_numbers) {
        None => "none".to_string(),
        Some((_, _, total)) => total.to_string(),
    };
    format!(
        "time {} {} {} {} {offset}",
        t.hour, t.minute, t.second, t.nanosecond
    )
}

fn datetime_words(both: &DateTime) -> String {
    format!("{} {}", date_words(&both.date), time_words(&both.time))
}

fn duration_words(d: &Duration) -> String {
    let parts = [
        d.years, d.months, d.weeks, d.days, d.hours, d.minutes, d.seconds,
    ];
    let worth = [365 * 86_400, 30 * 86_400, 7 * 86_400, 86_400, 3_600, 60, 1];
    let seconds: u64 = parts
        .iter()
        .zip(worth)
        .map(|(part, worth)| u64::from(*part) * worth)
        .sum();
    // Seven runs of 32 bits never bring the sum to 2^64: `over`, which ours prints above that, is
    // in no answer that is compared. The original sums in 32 bits, so its own sum has a meaning
    // only where the exact one fits.
    if seconds < 1 << 32 {
        let own = std::time::Duration::from(*d).as_secs();
        assert_eq!(own, seconds, "the original's own sum of seconds of {d:?}");
    }
    format!(
        "duration {} {seconds}",
        parts.map(|part| part.to_string()).join(" ")
    )
}
