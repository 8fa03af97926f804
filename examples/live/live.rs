//! A live stream of RTCM 3 on standard input: for each ephemeris, as soon as its frame is complete, a line on standard error and its
//! RINEX record on standard output. Its argument is a week near that of the stream; without it, that of the clock.
//!
//!     cargo run --manifest-path bindings/rust/Cargo.toml --example live -- 2295 < /dev/ttyUSB0 > live.rnx

use navbridge::{Error, Item};
use std::io::Write;
use std::time::{SystemTime, UNIX_EPOCH};

fn main() -> Result<(), Box<dyn std::error::Error>> {
    let now = SystemTime::now().duration_since(UNIX_EPOCH)?.as_secs();
    let week = match std::env::args().nth(1) {
        Some(text) => text.parse()?,
        None => navbridge::week_of_unix(now),
    };
    let mut output = std::io::stdout();
    write!(
        output,
        "{}",
        navbridge::header_write(&navbridge::date_of_unix(now), 18, 4)?
    )?;
    for frame in navbridge::frames(std::io::stdin()) {
        let item = match navbridge::frame_read(&frame?, week) {
            Ok(item) => item,
            Err(Error::NoNumber | Error::OtherMessage) => continue,
            Err(error) => {
                eprintln!("rejected: {error}");
                continue;
            }
        };
        let (letter, satellite, orbit) = match &item {
            Item::Gps(gps) => ('G', gps.satellite, gps.orbit()),
            Item::Gal(gal) => ('E', gal.satellite, gal.orbit()),
            _ => continue,
        };
        eprintln!(
            "{letter}{satellite:02} toe {:.0} e {:.9}",
            orbit.toe, orbit.e
        );
        write!(output, "{}", navbridge::record_write(&item, 4)?)?;
        output.flush()?;
    }
    Ok(())
}
