//! The proof ends at the C edge: what this crate adds to the calls of `navbridge.h` is tested, not proved.
//!
//! Messages, frames, subframes, pages and records of GPS and Galileo are read to structs of the integers that were
//! broadcast, and written from them. What cannot be given is an [`Error`].
//!
//! ```
//! let stream = std::fs::File::open(concat!(env!("CARGO_MANIFEST_DIR"), "/../../examples/ephemerides.rtcm3"))?;
//! for frame in navbridge::frames(stream) {
//!     let frame = frame?;
//!     let item = navbridge::frame_read(&frame, 2295)?;
//!     assert_eq!(navbridge::message_write(&item)?, frame);
//!     if let navbridge::Item::Gal(gal) = item {
//!         assert_eq!(gal.orbit().toe % 60.0, 0.0);
//!     }
//! }
//! # Ok::<(), Box<dyn std::error::Error>>(())
//! ```
#![warn(missing_docs)]

mod error;
mod raw;
mod rows;
mod streams;
mod values;

pub use error::Error;
pub use rows::{row_from_message, row_message, row_rinex, Column, Row};
pub use streams::{frames, records, Deframer, Frames, Joined, Pages, Push, Records, Signal};
pub use values::*;

use raw::Item as RawItem;

/// The most bytes that a frame has.
pub const FRAME_MOST: usize = 1029;

/// What a conversion wrote and what it reported.
#[derive(Clone, Debug, Default, PartialEq, Eq)]
pub struct Conversion {
    /// What the program would write.
    pub output: Vec<u8>,
    /// What it would report.
    pub report: Vec<u8>,
}

/// Does what the program `navbridge` does with these words and this input.
pub fn convert(words: &[&str], input: &[u8]) -> Result<Conversion, Error> {
    let words = raw::words(words);
    let mut made = Conversion {
        output: vec![0; 65536],
        report: vec![0; 65536],
    };
    loop {
        let (mut used, mut report_used) = (0, 0);
        // each pointer is valid for the size beside it, and nothing overlaps
        let status = unsafe {
            raw::nb_convert(
                words.as_ptr(),
                words.len(),
                input.as_ptr(),
                input.len(),
                made.output.as_mut_ptr(),
                made.output.len(),
                &mut used,
                made.report.as_mut_ptr(),
                made.report.len(),
                &mut report_used,
            )
        };
        let again = used > made.output.len() || report_used > made.report.len();
        if again {
            made.output.resize(used.max(made.output.len()), 0);
            made.report.resize(report_used.max(made.report.len()), 0);
            continue;
        }
        Error::check(status)?;
        made.output.truncate(used);
        made.report.truncate(report_used);
        return Ok(made);
    }
}

/// Whether these bytes are one whole frame of RTCM 3 with a right checksum, and nothing else.
pub fn is_frame(bytes: &[u8]) -> bool {
    unsafe { raw::nb_is_frame(bytes.as_ptr(), bytes.len()) }
}

/// The frame of a payload; none where it has more than 1,023 bytes.
pub fn frame_make(payload: &[u8]) -> Option<Vec<u8>> {
    let mut frame = vec![0; FRAME_MOST];
    let size = unsafe {
        raw::nb_frame_make(
            payload.as_ptr(),
            payload.len(),
            frame.as_mut_ptr(),
            frame.len(),
        )
    };
    frame.truncate(size);
    (size > 0).then_some(frame)
}

// what a call puts, or why there is none
fn read(call: impl FnOnce(&mut RawItem) -> u32) -> Result<Item, Error> {
    let mut item = RawItem::default();
    Error::check(call(&mut item))?;
    item.value()
}

// what a call writes into a buffer that has room for it
fn written(call: impl FnOnce(*mut u8, usize, &mut usize) -> u32) -> Result<Vec<u8>, Error> {
    let (mut all, mut used) = (vec![0; FRAME_MOST], 0);
    Error::check(call(all.as_mut_ptr(), all.len(), &mut used))?;
    all.truncate(used);
    Ok(all)
}

fn text(bytes: Vec<u8>) -> Result<String, Error> {
    String::from_utf8(bytes).map_err(|_| Error::NoText)
}

/// The ephemeris in message 1019 or 1046, whose week is the one near this, 1024 to 8191.
pub fn message_read(payload: &[u8], week: u32) -> Result<Item, Error> {
    read(|item| unsafe { raw::nb_message_read(payload.as_ptr(), payload.len(), week, item) })
}

/// The ephemeris in message 1019 or 1046 of a complete frame, as [`message_read`] reads it of the payload.
pub fn frame_read(frame: &[u8], week: u32) -> Result<Item, Error> {
    read(|item| unsafe { raw::nb_frame_read(frame.as_ptr(), frame.len(), week, item) })
}

/// The frame of message 1019 or 1046 of an ephemeris.
pub fn message_write(item: &Item) -> Result<Vec<u8>, Error> {
    let item = RawItem::of(item);
    written(|at, room, used| unsafe { raw::nb_message_write(&item, at, room, used) })
}

/// The GPS week of a time in seconds since 1970-01-01; 0 outside weeks 1 to 16,382.
pub fn week_of_unix(seconds: u64) -> u32 {
    unsafe { raw::nb_week_of_unix(seconds) }
}

/// The item of one record of a navigation file, of version 4 with its title line, of version 3 without.
pub fn record_read(text: &str, version: u32) -> Result<Item, Error> {
    read(|item| unsafe { raw::nb_record_read(text.as_ptr(), text.len(), version, item) })
}

/// The record of an item in a navigation file of RINEX 4.01 or 3.05; ionospheric parameters have none in version 3.
pub fn record_write(item: &Item, version: u32) -> Result<String, Error> {
    let item = RawItem::of(item);
    text(written(|at, room, used| unsafe {
        raw::nb_record_write(&item, version, at, room, used)
    })?)
}

/// The header of a navigation file of RINEX 4.01 or 3.05, with its date, as `20240101 000000 UTC`, and the leap seconds.
pub fn header_write(date: &str, leap: u8, version: u32) -> Result<String, Error> {
    let date = date.as_bytes().try_into().map_err(|_| Error::NoHeader)?;
    let header = raw::Header { date, leap };
    text(written(|at, room, used| unsafe {
        raw::nb_header_write(&header, version, at, room, used)
    })?)
}

/// The date of a header, as `20240101 000000 UTC`, of a time in seconds since 1970-01-01, up to the year 9999.
pub fn date_of_unix(seconds: u64) -> String {
    let (mut year, mut day, second) = (1970, seconds / 86_400, seconds % 86_400);
    let is_leap = |year: u64| year % 4 == 0 && (year % 100 != 0 || year % 400 == 0);
    while year < 9999 && day >= 365 + u64::from(is_leap(year)) {
        day -= 365 + u64::from(is_leap(year));
        year += 1;
    }
    let february = 28 + u64::from(is_leap(year));
    let mut month = 1;
    for days in [31, february, 31, 30, 31, 30, 31, 31, 30, 31, 30] {
        if day < days {
            break;
        }
        day -= days;
        month += 1;
    }
    let (hour, minute) = (second / 3600, second / 60 % 60);
    format!(
        "{year:04}{month:02}{:02} {hour:02}{minute:02}{:02} UTC",
        day.min(30) + 1,
        second % 60
    )
}

/// How many bytes the header at the start of a file has; `None` where no complete line of these bytes ends it.
pub fn header_size(bytes: &[u8]) -> Option<usize> {
    let size = unsafe { raw::nb_header_size(bytes.as_ptr(), bytes.len()) };
    (size > 0).then_some(size)
}

/// How many bytes the record at the start of these has: its lines up to the next that begins one, or up to the end of the
/// file. `None` where more bytes may decide it, and where there is none.
pub fn record_size(bytes: &[u8], version: u32, is_end: bool) -> Option<usize> {
    let size = unsafe { raw::nb_record_size(bytes.as_ptr(), bytes.len(), version, is_end) };
    (size > 0).then_some(size)
}

/// The content of an LNAV subframe of that GPS satellite: 300 bits with parity, and four that are ignored.
pub fn subframe_read(bits: &[u8; 38], satellite: u32) -> Result<Subframe, Error> {
    let mut subframe = raw::Subframe::default();
    Error::check(unsafe { raw::nb_subframe_read(bits, satellite, &mut subframe) })?;
    subframe.value()
}

/// The bits of an LNAV subframe; the TOW count is the start of the next in units of 6 s from the start of the week.
pub fn subframe_write(subframe: &Subframe, tow_count: u32) -> Result<[u8; 38], Error> {
    let mut bits = [0; 38];
    Error::check(unsafe {
        raw::nb_subframe_write(&raw::Subframe::of(subframe), tow_count, &mut bits)
    })?;
    Ok(bits)
}

/// The ephemeris of subframes 1, 2 and 3 of a GPS satellite, of one issue; its week is near this one, 1024 to 8191.
pub fn subframes_join(subframes: &[Subframe; 3], satellite: u32, week: u32) -> Result<Item, Error> {
    let subframes = [0, 1, 2].map(|it| raw::Subframe::of(&subframes[it]));
    read(|item| unsafe { raw::nb_subframes_join(&subframes, satellite, week, item) })
}

/// The content of the word of an I/NAV page of that Galileo satellite: its even and its odd part, 15 bytes each.
pub fn page_read(page: &[u8; 30], satellite: u32) -> Result<Word, Error> {
    let mut word = raw::Word::default();
    Error::check(unsafe { raw::nb_page_read(page, satellite, &mut word) })?;
    word.value()
}

/// The even and the odd part of the I/NAV page of a word that this Galileo satellite sends.
pub fn page_write(word: &Word, satellite: u32) -> Result<[u8; 30], Error> {
    let mut page = [0; 30];
    Error::check(unsafe { raw::nb_page_write(&raw::Word::of(word), satellite, &mut page) })?;
    Ok(page)
}

/// The ephemeris of words 1 to 5 of a Galileo satellite, of one issue; its week is near this one, 1024 to 8191.
pub fn words_join(words: &[Word; 5], satellite: u32, week: u32) -> Result<Item, Error> {
    let words = [0, 1, 2, 3, 4].map(|it| raw::Word::of(&words[it]));
    read(|item| unsafe { raw::nb_words_join(&words, satellite, week, item) })
}
