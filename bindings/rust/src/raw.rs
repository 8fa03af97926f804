//! The calls of navbridge.h as they are, and the structs that hold values for them.

use crate::error::Error;
use crate::values::*;
use crate::{Item as Value, Subframe as SubframeValue, Word as WordValue};
use std::os::raw::c_char;

#[repr(C)]
pub struct Bytes {
    pub at: *const u8,
    pub size: usize,
}

pub fn words(of: &[&str]) -> Vec<Bytes> {
    of.iter()
        .map(|it| Bytes {
            at: it.as_ptr(),
            size: it.len(),
        })
        .collect()
}

#[repr(C)]
#[derive(Default)]
pub struct IonBoth {
    moment: u64,
    satellite: u32,
    gps: GpsIon,
    gal: GalIon,
}

/// `nb_item`.
#[repr(C)]
#[derive(Default)]
pub struct Item {
    kind: u32,
    gps: Gps,
    gal: Gal,
    ion: IonBoth,
}

impl Item {
    pub fn of(value: &Value) -> Item {
        let mut raw = Item::default();
        match *value {
            Value::Gps(gps) => (raw.kind, raw.gps) = (1, gps),
            Value::Gal(gal) => (raw.kind, raw.gal) = (2, gal),
            Value::GpsIon(ion) => {
                raw.kind = 3;
                raw.ion = IonBoth {
                    moment: ion.moment,
                    satellite: ion.satellite,
                    gps: ion.parameters,
                    ..IonBoth::default()
                };
            }
            Value::GalIon(ion) => {
                raw.kind = 4;
                raw.ion = IonBoth {
                    moment: ion.moment,
                    satellite: ion.satellite,
                    gal: ion.parameters,
                    ..IonBoth::default()
                };
            }
        }
        raw
    }
    pub fn value(self) -> Result<Value, Error> {
        let IonBoth {
            moment,
            satellite,
            gps,
            gal,
        } = self.ion;
        match self.kind {
            1 => Ok(Value::Gps(self.gps)),
            2 => Ok(Value::Gal(self.gal)),
            3 => Ok(Value::GpsIon(Ion {
                moment,
                satellite,
                parameters: gps,
            })),
            4 => Ok(Value::GalIon(Ion {
                moment,
                satellite,
                parameters: gal,
            })),
            _ => Err(Error::NoItem),
        }
    }
}

/// `nb_subframe`.
#[repr(C)]
#[derive(Default)]
pub struct Subframe {
    number: u32,
    wn: u32,
    second: u32,
    clock: GpsClock,
    side: GpsSide,
    a: GpsOrbitA,
    fit: u32,
    b: GpsOrbitB,
    ion: GpsIon,
}

impl Subframe {
    pub fn of(value: &SubframeValue) -> Subframe {
        let none = Subframe::default();
        match *value {
            SubframeValue::One {
                wn,
                second,
                clock,
                side,
            } => Subframe {
                number: 1,
                wn,
                second,
                clock,
                side,
                ..none
            },
            SubframeValue::Two { a, fit } => Subframe {
                number: 2,
                a,
                fit,
                ..none
            },
            SubframeValue::Three(b) => Subframe {
                number: 3,
                b,
                ..none
            },
            SubframeValue::Four { second, ion } => Subframe {
                number: 4,
                second,
                ion,
                ..none
            },
        }
    }
    pub fn value(self) -> Result<SubframeValue, Error> {
        let Subframe {
            number,
            wn,
            second,
            clock,
            side,
            a,
            fit,
            b,
            ion,
        } = self;
        match number {
            1 => Ok(SubframeValue::One {
                wn,
                second,
                clock,
                side,
            }),
            2 => Ok(SubframeValue::Two { a, fit }),
            3 => Ok(SubframeValue::Three(b)),
            4 => Ok(SubframeValue::Four { second, ion }),
            _ => Err(Error::NoItem),
        }
    }
}

/// `nb_word`.
#[repr(C)]
#[derive(Default)]
pub struct Word {
    number: u32,
    wn: u32,
    second: u32,
    w1: GalWord1,
    w2: GalWord2,
    w3: GalWord3,
    w4: GalWord4,
    health: GalHealth,
    ion: GalIon,
}

impl Word {
    pub fn of(value: &WordValue) -> Word {
        let none = Word::default();
        match *value {
            WordValue::One(w1) => Word {
                number: 1,
                w1,
                ..none
            },
            WordValue::Two(w2) => Word {
                number: 2,
                w2,
                ..none
            },
            WordValue::Three(w3) => Word {
                number: 3,
                w3,
                ..none
            },
            WordValue::Four(w4) => Word {
                number: 4,
                w4,
                ..none
            },
            WordValue::Five {
                wn,
                second,
                health,
                ion,
            } => Word {
                number: 5,
                wn,
                second,
                health,
                ion,
                ..none
            },
        }
    }
    pub fn value(self) -> Result<WordValue, Error> {
        let Word {
            number,
            wn,
            second,
            w1,
            w2,
            w3,
            w4,
            health,
            ion,
        } = self;
        match number {
            1 => Ok(WordValue::One(w1)),
            2 => Ok(WordValue::Two(w2)),
            3 => Ok(WordValue::Three(w3)),
            4 => Ok(WordValue::Four(w4)),
            5 => Ok(WordValue::Five {
                wn,
                second,
                health,
                ion,
            }),
            _ => Err(Error::NoItem),
        }
    }
}

/// `nb_row`.
#[repr(C)]
pub struct Row {
    pub epoch: u64,
    pub message: u32,
    pub satellite: u32,
    pub count: u32,
    pub letter: u8,
    pub title: [u8; 7],
    pub columns: [i64; 40],
}

/// `nb_header`.
#[repr(C)]
pub struct Header {
    pub date: [u8; 19],
    pub leap: u8,
}

/// `nb_joined`.
#[repr(C)]
pub struct Joined {
    pub page: [u8; 30],
    pub stamp: u32,
}

// the sizes of navbridge.h's own checks
const _: () = assert!(
    std::mem::size_of::<Item>() == 344
        && std::mem::size_of::<Gps>() == 132
        && std::mem::size_of::<Gal>() == 140
);
const _: () =
    assert!(std::mem::size_of::<IonBoth>() == 64 && std::mem::size_of::<Subframe>() == 160);
const _: () = assert!(std::mem::size_of::<Word>() == 152 && std::mem::size_of::<Joined>() == 36);
const _: () = assert!(std::mem::size_of::<Header>() == 20 && std::mem::size_of::<Row>() == 352);

// a state is an array of u64, which is aligned; only the library looks at it
extern "C" {
    pub fn nb_status_text(status: u32) -> *const c_char;
    pub fn nb_convert(
        words: *const Bytes,
        n_words: usize,
        input: *const u8,
        n: usize,
        output: *mut u8,
        room: usize,
        used: *mut usize,
        report: *mut u8,
        report_room: usize,
        report_used: *mut usize,
    ) -> u32;
    pub fn nb_is_frame(bytes: *const u8, n: usize) -> bool;
    pub fn nb_frame_make(payload: *const u8, n: usize, frame: *mut u8, room: usize) -> usize;
    pub fn nb_message_read(payload: *const u8, n: usize, week: u32, item: *mut Item) -> u32;
    pub fn nb_week_of_unix(seconds: u64) -> u32;
    pub fn nb_frame_read(frame: *const u8, n: usize, week: u32, item: *mut Item) -> u32;
    pub fn nb_message_write(
        item: *const Item,
        frame: *mut u8,
        room: usize,
        used: *mut usize,
    ) -> u32;
    pub fn nb_row_from_message(payload: *const u8, n: usize, week: u32, row: *mut Row) -> u32;
    pub fn nb_row_message(row: *const Row, frame: *mut u8, room: usize, used: *mut usize) -> u32;
    pub fn nb_row_rinex(row: *const Row, text: *mut u8, room: usize, used: *mut usize) -> u32;
    pub fn nb_row_column(row: *const Row, index: u32, column: *mut crate::Column) -> u32;
    pub fn nb_row_name(row: *const Row, index: u32) -> *const c_char;
    pub fn nb_subframe_read(bits: *const [u8; 38], satellite: u32, subframe: *mut Subframe) -> u32;
    pub fn nb_subframe_write(subframe: *const Subframe, tow_count: u32, bits: *mut [u8; 38])
        -> u32;
    pub fn nb_subframes_join(
        subframes: *const [Subframe; 3],
        satellite: u32,
        week: u32,
        item: *mut Item,
    ) -> u32;
    pub fn nb_words_join(
        words: *const [Word; 5],
        satellite: u32,
        week: u32,
        item: *mut Item,
    ) -> u32;
    pub fn nb_page_read(page: *const [u8; 30], satellite: u32, word: *mut Word) -> u32;
    pub fn nb_page_write(word: *const Word, satellite: u32, page: *mut [u8; 30]) -> u32;
    pub fn nb_record_read(text: *const u8, n: usize, version: u32, item: *mut Item) -> u32;
    pub fn nb_record_write(
        item: *const Item,
        version: u32,
        text: *mut u8,
        room: usize,
        used: *mut usize,
    ) -> u32;
    pub fn nb_header_write(
        header: *const Header,
        version: u32,
        text: *mut u8,
        room: usize,
        used: *mut usize,
    ) -> u32;
    pub fn nb_header_size(text: *const u8, n: usize) -> usize;
    pub fn nb_record_size(text: *const u8, n: usize, version: u32, is_end: bool) -> usize;
    pub fn nb_deframer_size() -> usize;
    pub fn nb_deframer_init(at: *mut u64);
    pub fn nb_deframer_feed(at: *mut u64, bytes: *const u8, n: usize) -> usize;
    pub fn nb_deframer_next(at: *mut u64, frame: *mut u8, room: usize) -> usize;
    pub fn nb_deframer_finish(at: *mut u64);
    pub fn nb_pages_size() -> usize;
    pub fn nb_pages_init(at: *mut u64, window: u32);
    pub fn nb_pages_take(
        at: *mut u64,
        part: *const [u8; 15],
        stamp: u32,
        satellite: u32,
        signal: u32,
    ) -> u32;
    pub fn nb_pages_next(at: *mut u64, page: *mut Joined) -> u32;
    pub fn nb_pages_close(at: *mut u64);
    pub fn nb_push_size() -> usize;
    pub fn nb_push_open(at: *mut u64, words: *const Bytes, n_words: usize) -> u32;
    pub fn nb_push(at: *mut u64, bytes: *const u8, n: usize) -> u32;
    pub fn nb_push_finish(at: *mut u64) -> u32;
    pub fn nb_push_take(at: *mut u64, room: *mut u8, n: usize) -> usize;
    pub fn nb_push_take_report(at: *mut u64, room: *mut u8, n: usize) -> usize;
    pub fn nb_push_close(at: *mut u64);
}
