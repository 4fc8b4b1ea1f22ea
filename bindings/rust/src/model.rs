//! A project's records and text, as a file holds them.
use std::fmt;

use crate::{RECORDS, TEXT};

/// The records of a project and its names. Whether they are one is for the check to say.
#[derive(Clone, Debug, PartialEq, Eq)]
pub struct Model {
    kinds: Vec<u8>,
    words: Vec<u64>,
    text: Vec<u8>,
}

/// A file whose length is not what its first eight bytes say, or that says more than 4,096 records or 16,384 bytes of text.
#[derive(Clone, Copy, Debug, PartialEq, Eq)]
pub struct WrongFile;

impl fmt::Display for WrongFile {
    fn fmt(&self, f: &mut fmt::Formatter<'_>) -> fmt::Result {
        write!(f, "refused 1 at 0")
    }
}

impl std::error::Error for WrongFile {}

impl Model {
    /// A model of these parts.
    pub fn new(kinds: Vec<u8>, words: Vec<u64>, text: Vec<u8>) -> Model {
        Model { kinds, words, text }
    }

    /// The model in a file: the number of records and the length of the text, 4 bytes each, the kinds, the words, 8 bytes each, the text.
    /// The low byte is first. A file without bytes is a blank model, which has no records and no text.
    pub fn from_file(file: &[u8]) -> Result<Model, WrongFile> {
        if file.is_empty() {
            return Ok(Model::new(vec![], vec![], vec![]));
        }
        let size = |at: usize| {
            let bytes = file.get(at..at + 4).ok_or(WrongFile)?;
            Ok(u32::from_le_bytes(bytes.try_into().unwrap()) as usize)
        };
        let (records, text) = (size(0)?, size(4)?);
        if records > RECORDS || text > TEXT || file.len() != 8 + 9 * records + text {
            return Err(WrongFile);
        }
        let (kinds, rest) = file[8..].split_at(records);
        let (words, text) = rest.split_at(8 * records);
        let word = |bytes: &[u8]| u64::from_le_bytes(bytes.try_into().unwrap());
        Ok(Model::new(kinds.to_vec(), words.chunks_exact(8).map(word).collect(), text.to_vec()))
    }

    /// The kinds of the records.
    pub fn kinds(&self) -> &[u8] {
        &self.kinds
    }

    /// The words of the records.
    pub fn words(&self) -> &[u64] {
        &self.words
    }

    /// The names, each closed by a zero byte.
    pub fn text(&self) -> &[u8] {
        &self.text
    }

    /// The text of a name, if the model has so many.
    pub fn name(&self, number: u64) -> Option<&[u8]> {
        let closed = self.text.strip_suffix(&[0])?;
        closed.split(|b| *b == 0).nth(usize::try_from(number).ok()?)
    }
}
