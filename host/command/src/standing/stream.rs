//! A file that is read a piece at a time, and the SHA-256 of all of it.

use crate::digest::hex;
use crate::standing::LONGEST_SAVE;
use crate::text::open_file;
use sha2::{Digest, Sha256};
use std::fs::File;
use std::io::{self, Read};
use std::path::Path;

pub struct Stream {
    file: File,
    sum: Sha256,
}

impl Stream {
    pub fn open(path: &Path) -> io::Result<Self> {
        Ok(Self { file: open_file(path)?, sum: Sha256::new() })
    }

    /// The whole file's, with what was not read yet; of one that is far longer than any save, that of a part, which is no save's either.
    pub fn digest(mut self) -> io::Result<String> {
        io::copy(&mut self.by_ref().take(LONGEST_SAVE + 1), &mut io::sink())?;
        Ok(hex(&self.sum.finalize()))
    }
}

impl Read for Stream {
    fn read(&mut self, bytes: &mut [u8]) -> io::Result<usize> {
        let length = self.file.read(bytes)?;
        self.sum.update(bytes.get(..length).unwrap_or_default());
        Ok(length)
    }
}

#[cfg(test)]
mod tests {
    use super::*;
    use crate::digest::sha256;
    use std::fs;

    #[test]
    fn the_sum_is_of_all_that_is_there() {
        let place = tempfile::tempdir().unwrap();
        let bytes: Vec<u8> = (0..100_000u32).map(|n| (n % 251) as u8).collect();
        fs::write(place.path().join("f"), &bytes).unwrap();
        let mut stream = Stream::open(&place.path().join("f")).unwrap();
        let mut first = [0; 1000];
        stream.read_exact(&mut first).unwrap();
        assert!(first[..] == bytes[..1000] && stream.digest().unwrap() == sha256(&bytes));
        assert!(Stream::open(place.path()).is_err());
    }
}
