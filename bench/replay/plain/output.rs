//! Answer lines, in one buffer that is written whenever it is full.
use crate::text::{with_room, Ending};
use std::fs::File;
use std::io::{self, Write};
use std::os::fd::AsFd;

const PIECE: usize = 1 << 15;
/// Two digits for each byte, and a word before them.
const LONGEST_LINE: usize = 2 * crate::header::BUFFER_LIMIT + 64;

pub struct Output {
    file: File,
    /// Bytes that wait to be written, and room for more.
    text: Vec<u8>,
    length: usize,
}

impl Output {
    pub fn new() -> Result<Output, Ending> {
        let file = io::stdout().as_fd().try_clone_to_owned().map_err(|_| Ending::Output)?;
        let mut text = with_room(PIECE + LONGEST_LINE)?;
        text.resize(PIECE + LONGEST_LINE, 0);
        Ok(Output { file: File::from(file), text, length: 0 })
    }

    /// To be called behind each line.
    #[inline]
    pub fn line_done(&mut self) -> Result<(), Ending> {
        if self.length < PIECE {
            return Ok(());
        }
        self.flush()
    }

    pub fn flush(&mut self) -> Result<(), Ending> {
        self.file.write_all(&self.text[..self.length]).map_err(|_| Ending::Output)?;
        self.length = 0;
        Ok(())
    }

    /// The next bytes of the text, which are to be written over.
    #[inline(always)]
    fn room(&mut self, length: usize) -> &mut [u8] {
        let start = self.length;
        self.length += length;
        &mut self.text[start..self.length]
    }

    #[inline(always)]
    pub fn words<const N: usize>(&mut self, words: &[u8; N]) {
        self.room(N).copy_from_slice(words);
    }

    #[inline]
    pub fn number(&mut self, mut number: u64) {
        let length = number.checked_ilog10().unwrap_or(0) as usize + 1;
        for digit in self.room(length).iter_mut().rev() {
            *digit = b'0' + (number % 10) as u8;
            number /= 10;
        }
    }

    /// A word, a number, and the rest of the line.
    #[inline(always)]
    pub fn line<const N: usize, const M: usize>(&mut self, word: &[u8; N], number: u64, rest: &[u8; M]) {
        self.words(word);
        self.number(number);
        self.words(rest);
    }

    pub fn bytes(&mut self, bytes: &[u8]) {
        self.words(b"bytes ");
        for (digits, byte) in self.room(2 * bytes.len()).chunks_exact_mut(2).zip(bytes) {
            digits[0] = digit(byte >> 4);
            digits[1] = digit(byte & 15);
        }
        self.words(b"\n");
    }
}

fn digit(nibble: u8) -> u8 {
    nibble + if nibble < 10 { b'0' } else { b'a' - 10 }
}
