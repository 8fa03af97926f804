//! What holds a state: frames of a stream, parts of pages, a conversion that is pushed.

use std::collections::VecDeque;
use std::io::{self, Read};

use crate::error::Error;
use crate::{header_size, raw, record_size, FRAME_MOST};

fn state(size: usize) -> Box<[u64]> {
    vec![0; (size + 7) / 8].into_boxed_slice()
}

/// Finds the frames of a stream of RTCM 3 that comes in pieces of any size.
pub struct Deframer(Box<[u64]>);

impl Default for Deframer {
    fn default() -> Self {
        Deframer::new()
    }
}

impl Deframer {
    /// No byte was fed.
    pub fn new() -> Deframer {
        let mut at = state(unsafe { raw::nb_deframer_size() });
        unsafe { raw::nb_deframer_init(at.as_mut_ptr()) };
        Deframer(at)
    }

    fn decided(&mut self, each: &mut impl FnMut(&[u8])) {
        let mut frame = [0; FRAME_MOST];
        loop {
            match unsafe {
                raw::nb_deframer_next(self.0.as_mut_ptr(), frame.as_mut_ptr(), frame.len())
            } {
                0 => return,
                size => each(&frame[..size]),
            }
        }
    }

    /// Calls `each` for each frame that these bytes decide, with those that were fed before.
    pub fn feed(&mut self, mut bytes: &[u8], mut each: impl FnMut(&[u8])) {
        self.decided(&mut each);
        while !bytes.is_empty() {
            let taken =
                unsafe { raw::nb_deframer_feed(self.0.as_mut_ptr(), bytes.as_ptr(), bytes.len()) };
            if taken == 0 {
                return;
            }
            bytes = &bytes[taken..];
            self.decided(&mut each);
        }
    }

    /// No byte follows: calls `each` for each frame after an incomplete one.
    pub fn finish(&mut self, mut each: impl FnMut(&[u8])) {
        unsafe { raw::nb_deframer_finish(self.0.as_mut_ptr()) };
        self.decided(&mut each);
    }
}

/// The frames of a reader, each as soon as its last byte was read; see [`frames`].
pub struct Frames<R> {
    reader: R,
    deframer: Deframer,
    found: VecDeque<Vec<u8>>,
    ended: bool,
}

/// The frames of a file, a socket or any other reader.
pub fn frames<R: Read>(reader: R) -> Frames<R> {
    Frames {
        reader,
        deframer: Deframer::new(),
        found: VecDeque::new(),
        ended: false,
    }
}

impl<R: Read> Iterator for Frames<R> {
    type Item = io::Result<Vec<u8>>;

    fn next(&mut self) -> Option<Self::Item> {
        let mut piece = [0; 4096];
        loop {
            if let Some(frame) = self.found.pop_front() {
                return Some(Ok(frame));
            }
            if self.ended {
                return None;
            }
            let found = &mut self.found;
            match self.reader.read(&mut piece) {
                Ok(0) => {
                    self.ended = true;
                    self.deframer
                        .finish(|frame| found.push_back(frame.to_vec()));
                }
                Ok(size) => self
                    .deframer
                    .feed(&piece[..size], |frame| found.push_back(frame.to_vec())),
                Err(error) if error.kind() == io::ErrorKind::Interrupted => {}
                Err(error) => return Some(Err(error)),
            }
        }
    }
}

/// The records of a reader, each as soon as the next begins; see [`records`].
pub struct Records<R> {
    reader: R,
    version: u32,
    text: Vec<u8>,
    at: usize,
    in_header: bool,
    ended: bool,
}

/// The records of a navigation file of this version, as [`record_read`](crate::record_read) takes them. Where the file has no header
/// there is none.
pub fn records<R: Read>(reader: R, version: u32) -> Records<R> {
    Records {
        reader,
        version,
        text: Vec::new(),
        at: 0,
        in_header: true,
        ended: false,
    }
}

impl<R: Read> Iterator for Records<R> {
    type Item = io::Result<String>;

    fn next(&mut self) -> Option<Self::Item> {
        let mut piece = [0; 4096];
        loop {
            let rest = &self.text[self.at..];
            let size = if self.in_header {
                header_size(rest)
            } else {
                record_size(rest, self.version, self.ended)
            };
            if let Some(size) = size {
                let record = String::from_utf8_lossy(&rest[..size]).into_owned();
                self.at += size;
                if !std::mem::take(&mut self.in_header) {
                    return Some(Ok(record));
                }
                continue;
            }
            if self.ended {
                return None;
            }
            if self.in_header {
                // lines that do not end it are dropped
                let end = self.text.iter().rposition(|&it| it == b'\n');
                self.at = end.map_or(0, |it| it + 1);
            }
            self.text.drain(..std::mem::take(&mut self.at));
            match self.reader.read(&mut piece) {
                Ok(size) => {
                    self.ended = size == 0;
                    self.text.extend_from_slice(&piece[..size]);
                }
                Err(error) if error.kind() == io::ErrorKind::Interrupted => {}
                Err(error) => return Some(Err(error)),
            }
        }
    }
}

/// The signal on which a part of a page was received.
#[derive(Clone, Copy, Debug, PartialEq, Eq, Hash)]
pub enum Signal {
    /// E1-B
    E1B = 1,
    /// E5b-I
    E5B = 2,
}

/// The page of two parts that belong together.
#[derive(Clone, Copy, Debug, PartialEq, Eq)]
pub struct Joined {
    /// its even and its odd part, as [`page_read`](crate::page_read) takes it
    pub page: [u8; 30],
    /// the stamp of its odd part
    pub stamp: u32,
}

/// Parts of I/NAV pages that wait for their partners, taken in any order.
pub struct Pages(Box<[u64]>);

impl Pages {
    /// A part is kept while its stamp is at most the window and one second below the greatest, 60 to 14,400 seconds.
    pub fn new(window: u32) -> Pages {
        let mut at = state(unsafe { raw::nb_pages_size() });
        unsafe { raw::nb_pages_init(at.as_mut_ptr(), window) };
        Pages(at)
    }

    /// The pages that a part makes with those that were taken.
    pub fn take(
        &mut self,
        part: &[u8; 15],
        stamp: u32,
        satellite: u32,
        signal: Signal,
    ) -> Result<Vec<Joined>, Error> {
        let at = self.0.as_mut_ptr();
        Error::check(unsafe { raw::nb_pages_take(at, part, stamp, satellite, signal as u32) })?;
        let (mut page, mut pages) = (
            raw::Joined {
                page: [0; 30],
                stamp: 0,
            },
            Vec::new(),
        );
        while unsafe { raw::nb_pages_next(at, &mut page) } != 0 {
            pages.push(Joined {
                page: page.page,
                stamp: page.stamp,
            });
        }
        Ok(pages)
    }
}

impl Drop for Pages {
    fn drop(&mut self) {
        unsafe { raw::nb_pages_close(self.0.as_mut_ptr()) }
    }
}

/// A conversion whose input is pushed in pieces of any size, and whose output is taken as it comes.
pub struct Push(Box<[u64]>);

impl Push {
    /// The words name a job over a capture, or over a stream to RINEX or to its ephemerides.
    pub fn open(words: &[&str]) -> Result<Push, Error> {
        let words = raw::words(words);
        let mut it = Push(state(unsafe { raw::nb_push_size() }));
        // whatever is answered, it is closed when it is dropped
        Error::check(unsafe { raw::nb_push_open(it.0.as_mut_ptr(), words.as_ptr(), words.len()) })?;
        Ok(it)
    }

    /// Takes the next bytes of the input.
    pub fn push(&mut self, bytes: &[u8]) -> Result<(), Error> {
        Error::check(unsafe { raw::nb_push(self.0.as_mut_ptr(), bytes.as_ptr(), bytes.len()) })
    }

    /// No byte follows.
    pub fn finish(&mut self) -> Result<(), Error> {
        Error::check(unsafe { raw::nb_push_finish(self.0.as_mut_ptr()) })
    }

    fn taken(&mut self, take: unsafe extern "C" fn(*mut u64, *mut u8, usize) -> usize) -> Vec<u8> {
        let (mut all, mut room) = (Vec::new(), [0; 4096]);
        loop {
            match unsafe { take(self.0.as_mut_ptr(), room.as_mut_ptr(), room.len()) } {
                0 => return all,
                size => all.extend_from_slice(&room[..size]),
            }
        }
    }

    /// The output that was decided since it was last taken.
    pub fn take(&mut self) -> Vec<u8> {
        self.taken(raw::nb_push_take)
    }

    /// The same of the report.
    pub fn take_report(&mut self) -> Vec<u8> {
        self.taken(raw::nb_push_take_report)
    }
}

impl Drop for Push {
    fn drop(&mut self) {
        unsafe { raw::nb_push_close(self.0.as_mut_ptr()) }
    }
}
