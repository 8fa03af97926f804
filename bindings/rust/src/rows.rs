//! Ephemerides of any system as rows of integers.

use crate::error::Error;
use crate::{raw, text, written};
use std::ffi::CStr;

/// The ephemeris of any system as the columns of its record.
#[derive(Clone, Debug, Default, PartialEq, Eq, Hash)]
pub struct Row {
    /// the number of its message
    pub message: u32,
    /// its number in the message
    pub satellite: u32,
    /// the letter of its system; ignored when a record is written
    pub letter: char,
    /// the title of its records, such as `FDMA`; ignored as well
    pub title: String,
    /// the epoch of its record, s from 1980-01-06 in the time scale of the record
    pub epoch: u64,
    /// the integers of its columns
    pub integers: Vec<i64>,
}

/// The unit of a column: its value is integer * factor * 2^two * 10^ten.
#[repr(C)]
#[derive(Clone, Copy, Debug, Default, PartialEq, Eq, Hash)]
pub struct Column {
    /// an integer factor
    pub factor: u32,
    /// the exponent of 2
    pub two: i32,
    /// the exponent of 10
    pub ten: i32,
    /// 1 if the value is in semicircles, and the record in radians
    pub is_angle: u32,
    /// an `nb_rule`: 0 the value itself
    pub rule: u32,
}

impl Row {
    fn raw(&self) -> Result<raw::Row, Error> {
        let mut columns = [0; 40];
        columns
            .get_mut(..self.integers.len())
            .ok_or(Error::NoItem)?
            .copy_from_slice(&self.integers);
        Ok(raw::Row {
            epoch: self.epoch,
            message: self.message,
            satellite: self.satellite,
            count: self.integers.len() as u32,
            letter: 0,
            title: [0; 7],
            columns,
        })
    }

    /// Its columns: name, integer and unit of each.
    pub fn columns(&self) -> Result<Vec<(&'static str, i64, Column)>, Error> {
        let raw = self.raw()?;
        let mut all = Vec::new();
        for (index, integer) in (0..).zip(&self.integers) {
            let mut column = Column::default();
            Error::check(unsafe { raw::nb_row_column(&raw, index, &mut column) })?;
            // a text of the library, which ends with a zero and stays
            let name = unsafe { CStr::from_ptr(raw::nb_row_name(&raw, index)) };
            all.push((name.to_str().unwrap_or(""), *integer, column));
        }
        Ok(all)
    }
}

/// The ephemeris in a message of any system that the library has a table of, near this week, 1024 to 8191.
pub fn row_from_message(payload: &[u8], week: u32) -> Result<Row, Error> {
    let mut raw = raw::Row {
        epoch: 0,
        message: 0,
        satellite: 0,
        count: 0,
        letter: 0,
        title: [0; 7],
        columns: [0; 40],
    };
    Error::check(unsafe {
        raw::nb_row_from_message(payload.as_ptr(), payload.len(), week, &mut raw)
    })?;
    let title = raw.title.iter().take_while(|it| **it != 0);
    Ok(Row {
        message: raw.message,
        satellite: raw.satellite,
        letter: raw.letter.into(),
        title: title.map(|it| char::from(*it)).collect(),
        epoch: raw.epoch,
        integers: raw.columns[..raw.count as usize].to_vec(),
    })
}

/// The frame of the message of a row.
pub fn row_message(row: &Row) -> Result<Vec<u8>, Error> {
    let raw = row.raw()?;
    written(|at, room, used| unsafe { raw::nb_row_message(&raw, at, room, used) })
}

/// The record of a row in a navigation file of RINEX 4.01.
pub fn row_rinex(row: &Row) -> Result<String, Error> {
    let raw = row.raw()?;
    text(written(|at, room, used| unsafe {
        raw::nb_row_rinex(&raw, at, room, used)
    })?)
}
