//! The reasons of navbridge.h.

use crate::raw;
use std::ffi::CStr;
use std::fmt;

macro_rules! reasons {
    ($($number:literal $name:ident $text:literal)*) => {
        /// Why a call gave nothing; the names and numbers are those of `navbridge.h`.
        #[derive(Clone, Copy, Debug, PartialEq, Eq, Hash)]
        #[non_exhaustive]
        pub enum Error {
            $(#[doc = $text] $name,)*
            /// the parity of this word of the subframe, 1 to 10, is wrong
            SubframeParity(u8),
            /// a number that this crate has no name for
            Other(u32),
        }
        impl Error {
            /// The number of the reason, an `nb_status`.
            pub fn status(self) -> u32 {
                match self {
                    $(Error::$name => $number,)*
                    Error::SubframeParity(word) => 48 + u32::from(word),
                    Error::Other(status) => status,
                }
            }
            pub(crate) fn check(status: u32) -> Result<(), Error> {
                Err(match status {
                    0 => return Ok(()),
                    $($number => Error::$name,)*
                    49..=58 => Error::SubframeParity((status - 48) as u8),
                    _ => Error::Other(status),
                })
            }
        }
    };
}

include!("statuses.rs");

impl fmt::Display for Error {
    fn fmt(&self, to: &mut fmt::Formatter<'_>) -> fmt::Result {
        // a text of the library, which ends with a zero and stays
        let text = unsafe { CStr::from_ptr(raw::nb_status_text(self.status())) };
        to.write_str(&text.to_string_lossy())?;
        match self {
            Error::Other(status) => write!(to, " {status}"),
            _ => Ok(()),
        }
    }
}

impl std::error::Error for Error {}

#[test]
fn reasons_are_those_of_the_header() {
    let kept = include_str!("../../c/reasons.txt");
    for line in kept.lines() {
        let mut parts = line.splitn(3, ' ');
        let mut part = || parts.next().unwrap();
        let (number, name, text) = (part().parse().unwrap(), part(), part());
        match Error::check(number) {
            Ok(()) => assert_eq!(name, "NB_OK"),
            Err(error) => {
                assert_ne!(error, Error::Other(number), "{name}");
                assert_eq!(error.status(), number, "{name}");
                assert_eq!(error.to_string(), text, "{name}");
                let spelled: String = format!("{error:?}")
                    .to_uppercase()
                    .chars()
                    .filter(|it| it.is_alphanumeric())
                    .collect();
                assert_eq!(spelled, name[3..].replace('_', ""), "{name}");
            }
        }
    }
    assert_eq!(Error::Other(200).to_string(), "unknown status 200");
}
