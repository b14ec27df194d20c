//! The records of a file that are not blank, with cleaned cells.
use csv::{Reader, ReaderBuilder, StringRecord};
use std::error::Error;

/// The bytes that cleaning drops at both ends of a cell.
fn is_space(c: char) -> bool {
    matches!(c, '\t'..='\r' | ' ')
}

pub struct Records<'a> {
    reader: Reader<&'a [u8]>,
    row: StringRecord,
}

impl<'a> Records<'a> {
    pub fn new(bytes: &'a [u8], delimiter: u8) -> Records<'a> {
        let reader = ReaderBuilder::new()
            .has_headers(false)
            .flexible(true)
            .delimiter(delimiter)
            .from_reader(bytes);
        Records { reader, row: StringRecord::new() }
    }

    /// Goes to the next record that is not blank, if there is one.
    pub fn next(&mut self) -> Result<bool, csv::Error> {
        while self.reader.read_record(&mut self.row)? {
            if self.row.iter().any(|field| !field.trim_matches(is_space).is_empty()) {
                return Ok(true);
            }
        }
        Ok(false)
    }

    /// Goes to the next record, which there has to be.
    pub fn need(&mut self) -> Result<(), Box<dyn Error>> {
        if self.next()? { Ok(()) } else { Err("the file ends too early".into()) }
    }

    /// A cell, empty where there is none.
    pub fn cell(&self, place: usize) -> &str {
        self.row.get(place).map_or("", |field| field.trim_matches(is_space))
    }

    /// Whether these are the cells, and there are no more that are not empty.
    pub fn is(&self, cells: &[&str]) -> bool {
        let empty = (cells.len()..self.row.len()).all(|place| self.cell(place).is_empty());
        empty && cells.iter().enumerate().all(|(place, want)| self.cell(place).eq_ignore_ascii_case(want))
    }

    /// The column of a name.
    pub fn column(&self, name: &str) -> Option<usize> {
        (0..self.row.len()).find(|place| self.cell(*place).eq_ignore_ascii_case(name))
    }
}
