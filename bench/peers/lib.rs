//! The original and its peers, for C to call. A reader leaves its own record in the slots, as it stands, and returns 0; or 1, a refusal.
//! A writer finds such a record from slot 2 on, writes its text and leaves the text's length in slot 0. What tells how far apart two stamps
//! are leaves its own record of that.
use chrono::{DateTime, FixedOffset, NaiveDate, NaiveDateTime, NaiveTime};
use std::fmt::{self, Write as _};
use std::io;
use std::slice::{from_raw_parts_mut, IterMut};
use std::sync::OnceLock;
use time::format_description::{parse, well_known::Rfc3339, FormatItem};
use time::macros::format_description;
use time::{Date, OffsetDateTime, PrimitiveDateTime, Time, UtcOffset};
use winnow_datetime::winnow::error::EmptyError;

macro_rules! reader {
    ($name:ident, |$bytes:ident| $read:expr) => {
        /// # Safety
        /// `text` is `length` bytes long, and `slots` has room for the record.
        #[no_mangle]
        pub unsafe extern "C" fn $name(
            text: *const u8,
            length: usize,
            slots: *mut i64,
            _room: usize,
        ) -> u32 {
            let $bytes = std::slice::from_raw_parts(text, length);
            match $read {
                Some(record) => {
                    std::ptr::write(slots.cast(), record);
                    0
                }
                None => 1,
            }
        }
    };
}

// The original, on bytes, with the count that it took.
macro_rules! original {
    ($name:ident, $kind:ident) => {
        reader!($name, |bytes| {
            let mut rest = bytes;
            let read: Result<_, EmptyError> = winnow_datetime::$kind::$kind(&mut rest);
            read.ok().map(|record| (record, bytes.len() - rest.len()))
        });
    };
}
original!(original_date, date);
original!(original_time, time);
original!(original_offset, offset);
original!(original_datetime, datetime);
original!(original_duration, duration);

// The peers read a `str`. The texts are ASCII, and nobody is charged for finding that out.
unsafe fn ascii(bytes: &[u8]) -> &str {
    std::str::from_utf8_unchecked(bytes)
}

reader!(chrono_date, |bytes| ascii(bytes).parse::<NaiveDate>().ok());
reader!(chrono_basic, |bytes| NaiveDate::parse_from_str(ascii(bytes), "%Y%m%d").ok());
reader!(chrono_week, |bytes| NaiveDate::parse_from_str(ascii(bytes), "%G-W%V-%u").ok());
reader!(chrono_ordinal, |bytes| NaiveDate::parse_from_str(ascii(bytes), "%Y-%j").ok());
reader!(chrono_time, |bytes| ascii(bytes).parse::<NaiveTime>().ok());
reader!(chrono_datetime, |bytes| ascii(bytes).parse::<NaiveDateTime>().ok());
reader!(chrono_stamp, |bytes| DateTime::parse_from_rfc3339(ascii(bytes)).ok());

reader!(iso8601_date, |bytes| iso8601::date(ascii(bytes)).ok());
reader!(iso8601_time, |bytes| iso8601::time(ascii(bytes)).ok());
reader!(iso8601_datetime, |bytes| iso8601::datetime(ascii(bytes)).ok());
reader!(iso8601_duration, |bytes| iso8601::duration(ascii(bytes)).ok());

// The formats of `time`, parsed once, before anything is counted.
static FORMATS: OnceLock<[Vec<FormatItem<'static>>; 7]> = OnceLock::new();

#[no_mangle]
pub extern "C" fn peers_start() {
    FORMATS.get_or_init(|| {
        [
            "[year]-[month]-[day]",
            "[year][month][day]",
            "[year base:iso_week]-W[week_number]-[weekday repr:monday one_indexed:true]",
            "[year]-[ordinal]",
            "[hour]:[minute]:[second].[subsecond]",
            "[offset_hour sign:mandatory]:[offset_minute]",
            "[year]-[month]-[day]T[hour]:[minute]:[second]",
        ]
        .map(|text| parse(text).unwrap())
    });
}

macro_rules! by_format {
    ($name:ident, $kind:ident, $which:expr) => {
        reader!($name, |bytes| FORMATS
            .get()
            .and_then(|formats| $kind::parse(ascii(bytes), &formats[$which]).ok()));
    };
}
by_format!(time_date, Date, 0);
by_format!(time_basic, Date, 1);
by_format!(time_week, Date, 2);
by_format!(time_ordinal, Date, 3);
by_format!(time_time, Time, 4);
by_format!(time_offset, UtcOffset, 5);
by_format!(time_datetime, PrimitiveDateTime, 6);
reader!(time_stamp, |bytes| OffsetDateTime::parse(ascii(bytes), &Rfc3339).ok());

// Both libraries subtract stamps of any two offsets. Of the texts of stamps they take RFC 3339, by the readers above.
macro_rules! differ {
    ($name:ident, |$bytes:ident| $read:expr) => {
        /// # Safety
        /// The texts are so many bytes long, and `slots` has room for the record.
        #[no_mangle]
        pub unsafe extern "C" fn $name(
            first: *const u8,
            first_length: usize,
            second: *const u8,
            second_length: usize,
            slots: *mut i64,
            _room: usize,
            _choices: u32,
        ) -> u32 {
            let read = |$bytes: &[u8]| $read;
            let Some(from) = read(std::slice::from_raw_parts(first, first_length)) else {
                return 1;
            };
            let Some(to) = read(std::slice::from_raw_parts(second, second_length)) else {
                return 1;
            };
            std::ptr::write(slots.cast(), to - from);
            0
        }
    };
}
differ!(chrono_apart, |bytes| DateTime::parse_from_rfc3339(ascii(bytes)).ok());
differ!(time_apart, |bytes| OffsetDateTime::parse(ascii(bytes), &Rfc3339).ok());

// Where writers write: the bytes that are left. The pieces of a text are of one byte to four, for which a loop takes fewer
// instructions than `memcpy`. They are ASCII here, too.
struct Rest<'a>(IterMut<'a, u8>);

impl Rest<'_> {
    fn put(&mut self, bytes: &[u8]) -> Option<()> {
        for byte in bytes {
            *self.0.next()? = *byte;
        }
        Some(())
    }
}

impl fmt::Write for Rest<'_> {
    fn write_str(&mut self, text: &str) -> fmt::Result {
        self.put(text.as_bytes()).ok_or(fmt::Error)
    }
    fn write_char(&mut self, character: char) -> fmt::Result {
        self.put(&[character as u8]).ok_or(fmt::Error)
    }
}

impl io::Write for Rest<'_> {
    fn write(&mut self, bytes: &[u8]) -> io::Result<usize> {
        self.write_all(bytes).map(|()| bytes.len())
    }
    fn write_all(&mut self, bytes: &[u8]) -> io::Result<()> {
        self.put(bytes).ok_or(io::ErrorKind::WriteZero.into())
    }
    fn flush(&mut self) -> io::Result<()> {
        Ok(())
    }
}

macro_rules! writer {
    ($name:ident, $kind:ty, |$record:ident, $rest:ident| $write:expr) => {
        /// # Safety
        /// A record of this kind stands from slot 2 on, and `text` has room for `length` bytes.
        #[no_mangle]
        pub unsafe extern "C" fn $name(
            slots: *mut i64,
            _room: usize,
            text: *mut u8,
            length: usize,
        ) -> u32 {
            let $record = &*slots.add(2).cast::<$kind>();
            let mut $rest = Rest(from_raw_parts_mut(text, length).iter_mut());
            if $write.is_err() {
                return 1;
            }
            *slots = (length - $rest.0.len()) as i64;
            0
        }
    };
}

// Of each library's ways to write these bytes, the one that takes the fewest instructions and allocates nothing.
//
// chrono: `Debug`, which `Display` of a date and of a time goes to. A format, its items at hand or not, allocates, and takes several
// times as many; so does `to_rfc3339_opts`. `to_rfc3339` allocates, too, and takes about as many.
writer!(chrono_write_date, NaiveDate, |date, rest| write!(rest, "{date:?}"));
writer!(chrono_write_time, NaiveTime, |time, rest| write!(rest, "{time:?}"));
writer!(chrono_write_stamp, DateTime<FixedOffset>, |stamp, rest| write!(rest, "{stamp:?}"));

// time: formats that the compiler sees, with three digits, and for a stamp the library's own for RFC 3339. The same formats parsed at
// the start take more, and so do a fraction of any length, `Display`, and a format in the place of RFC 3339's.
const DATE: &[FormatItem<'static>] = format_description!("[year]-[month]-[day]");
const TIME: &[FormatItem<'static>] =
    format_description!("[hour]:[minute]:[second].[subsecond digits:3]");
writer!(time_write_date, Date, |date, rest| date.format_into(&mut rest, DATE));
writer!(time_write_time, Time, |time, rest| time.format_into(&mut rest, TIME));
writer!(time_write_stamp, OffsetDateTime, |stamp, rest| stamp.format_into(&mut rest, &Rfc3339));
