//! The examples of the repository, as the program does them.

use navbridge::*;

fn read(name: &str) -> Vec<u8> {
    std::fs::read(format!(
        "{}/../../examples/{name}",
        env!("CARGO_MANIFEST_DIR")
    ))
    .unwrap()
}

const WORDS: [&str; 5] = [
    "--from=stream",
    "--to=rinex",
    "--week=2295",
    "--date=20240101 000000 UTC",
    "--leap=18",
];

#[test]
fn pieces_give_what_the_whole_gives() {
    let (stream, want) = (read("ephemerides.rtcm3"), read("expected/ephemerides.rnx"));
    let whole = convert(&WORDS, &stream).unwrap();
    assert_eq!(whole.output, want);
    for size in [1, 7, stream.len()] {
        let (mut job, mut deframer) = (Push::open(&WORDS).unwrap(), Deframer::new());
        let (mut output, mut found) = (Vec::new(), Vec::new());
        for piece in stream.chunks(size) {
            job.push(piece).unwrap();
            output.extend(job.take());
            deframer.feed(piece, |frame| found.extend_from_slice(frame));
        }
        job.finish().unwrap();
        output.extend(job.take());
        deframer.finish(|frame| found.extend_from_slice(frame));
        assert_eq!(
            (output, job.take_report()),
            (want.clone(), whole.report.clone()),
            "{size}"
        );
        assert_eq!(found, stream, "{size}");
    }
}

#[test]
fn what_is_read_is_written() {
    for frame in frames(&read("ephemerides.rtcm3")[..]) {
        let frame = frame.unwrap();
        assert!(is_frame(&frame));
        assert_eq!(frame_make(&frame[3..frame.len() - 3]).unwrap(), frame);
        let item = message_read(&frame[3..frame.len() - 3], 2295).unwrap();
        assert_eq!(frame_read(&frame, week_of_unix(1_704_067_200)), Ok(item));
        assert_eq!(message_write(&item).unwrap(), frame);
        assert_eq!(
            record_read(&record_write(&item, 4).unwrap(), 4).unwrap(),
            item
        );
        match item {
            Item::Gps(gps) => {
                let subframe = Subframe::Three(gps.b);
                assert_eq!(
                    subframe_read(&subframe_write(&subframe, 7).unwrap(), gps.satellite),
                    Ok(subframe)
                );
            }
            Item::Gal(gal) => {
                let (word, mut pages) = (Word::One(gal.w1), Pages::new(60));
                let page = page_write(&word, gal.satellite).unwrap();
                assert_eq!(page_read(&page, gal.satellite), Ok(word));
                let (mut even, mut odd) = ([0; 15], [0; 15]);
                even.copy_from_slice(&page[..15]);
                odd.copy_from_slice(&page[15..]);
                assert_eq!(
                    pages.take(&odd, 1001, gal.satellite, Signal::E1B),
                    Ok(vec![])
                );
                assert_eq!(
                    pages.take(&even, 1000, gal.satellite, Signal::E1B),
                    Ok(vec![Joined { page, stamp: 1001 }])
                );
            }
            _ => unreachable!(),
        }
    }
}

#[test]
fn records_of_a_file_are_those_of_its_stream() {
    let file = read("expected/ephemerides.rnx");
    let header = header_write(&date_of_unix(1_704_067_200), 18, 4).unwrap();
    assert!(file.starts_with(header.as_bytes()));
    let texts: Vec<String> = records(&file[..], 4).map(Result::unwrap).collect();
    assert_eq!(header + &texts.concat(), String::from_utf8(file).unwrap());
    let items: Vec<Item> = texts
        .iter()
        .map(|text| record_read(text, 4).unwrap())
        .collect();
    let stream: Vec<Item> = frames(&read("ephemerides.rtcm3")[..])
        .map(|frame| frame_read(&frame.unwrap(), 2295).unwrap())
        .collect();
    assert_eq!(items, stream);
}

#[test]
fn dates_are_those_of_the_calendar() {
    for (seconds, date) in [
        (0, "19700101 000000 UTC"),
        (951_782_399, "20000228 235959 UTC"),
        (951_782_400, "20000229 000000 UTC"),
        (1_709_164_800, "20240229 000000 UTC"),
        (1_735_689_599, "20241231 235959 UTC"),
        (4_107_542_400, "21000301 000000 UTC"),
        (253_402_300_799, "99991231 235959 UTC"),
    ] {
        assert_eq!(date_of_unix(seconds), date);
    }
}

#[test]
fn parts_of_one_issue_are_joined() {
    let (mut gps, gal) = (Gps::default(), Gal::default());
    gps.a.toe = 37_799;
    let first = Subframe::One {
        wn: 247,
        second: 0,
        clock: gps.clock,
        side: gps.side,
    };
    let second = Subframe::Two { a: gps.a, fit: 0 };
    let joined = subframes_join(&[first, second, Subframe::Three(gps.b)], 7, 2295).unwrap();
    (gps.satellite, gps.toe_week) = (7, 2294);
    gps.sent = Sent {
        is_known: 1,
        second: 604_800,
    };
    assert_eq!(joined, Item::Gps(gps));
    let words = [
        Word::One(gal.w1),
        Word::Two(gal.w2),
        Word::Three(gal.w3),
        Word::Four(gal.w4),
        Word::Four(gal.w4),
    ];
    assert_eq!(words_join(&words, 7, 2295), Err(Error::NoItem));
}

#[test]
fn a_row_has_its_columns_by_name() {
    let mut payload = [0; 61];
    for (at, byte) in [0x41, 0x11, 0x0f, 0x7f].into_iter().enumerate() {
        payload[at] = byte;
    }
    let mut row = row_from_message(&payload, 2295).unwrap();
    assert_eq!(
        (row.letter, &row.title[..], row.satellite),
        ('I', "LNAV", 4)
    );
    let columns = row.columns().unwrap();
    assert_eq!(
        (columns.len(), columns[0].0, columns[0].2.two),
        (28, "af0", -31)
    );
    assert!(row_rinex(&row).unwrap().starts_with("> EPH I04 LNAV\n"));
    let frame = row_message(&row).unwrap();
    assert_eq!(
        row_from_message(&frame[3..frame.len() - 3], 2295),
        Ok(row.clone())
    );
    row.integers[0] = 1 << 40;
    assert_eq!(row_rinex(&row), Err(Error::NoItem));
    assert_eq!(row_message(&row), Err(Error::NoItem));
    assert_eq!(row_from_message(&payload[..60], 2295), Err(Error::Short));
}

#[test]
fn what_cannot_be_given_has_a_reason() {
    assert_eq!(convert(&["--from=nothing"], b"").unwrap_err(), Error::NoJob);
    assert_eq!(
        convert(&["--from=capture", "--to=list"], b"none\n").unwrap_err(),
        Error::NotThisForm
    );
    assert_eq!(
        Push::open(&["--from=rinex", "--to=list"]).err(),
        Some(Error::NotPushed)
    );
    assert_eq!(message_read(b"", 2295), Err(Error::NoNumber));
    assert_eq!(record_read("> EPH G01 LNAV\n", 4), Err(Error::RecordShort));
    assert_eq!(frame_make(&[0; 1024]), None);
    let error: Box<dyn std::error::Error> = Box::new(Error::SubframeParity(3));
    assert_eq!(error.to_string(), "the parity of word 3 is wrong");
}
