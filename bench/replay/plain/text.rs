//! The lines, words and numbers of a text, and why a run ends early.

pub const TEXT_LIMIT: usize = 1 << 20;
/// So many bytes 00 stand behind a text.
pub const PADDING: usize = 8;

/// Why a run ends early; `at` counts bytes of the text.
pub enum Ending {
    Fault { at: u32, number: u8 },
    NoDevice { part: u8, index: u32 },
    Memory,
    Input,
    Output,
}

pub const WORD: u8 = 70;
pub const NUMBER: u8 = 71;
pub const NO_SUCH: u8 = 72;
pub const ORDER: u8 = 73;
pub const TOO_LONG: u8 = 74;
pub const NO_END: u8 = 75;
pub const NOT_TEXT: u8 = 76;
pub const BAD_JOB: u8 = 77;

/// A list takes one more element, or memory is refused.
#[inline]
pub fn push<T>(list: &mut Vec<T>, element: T) -> Result<(), Ending> {
    if list.len() == list.capacity() {
        list.try_reserve(1).map_err(|_| Ending::Memory)?;
    }
    list.push(element);
    Ok(())
}

pub fn with_room<T>(room: usize) -> Result<Vec<T>, Ending> {
    let mut list = Vec::new();
    list.try_reserve_exact(room).map_err(|_| Ending::Memory)?;
    Ok(list)
}

/// The first word of a line as a number, so that one comparison tells it; longer words have no eighth byte of zero.
const fn key(word: &[u8]) -> u64 {
    let mut key = 0;
    let mut at = word.len();
    while at > 0 {
        at -= 1;
        key = key << 8 | word[at] as u64;
    }
    key
}

macro_rules! first_words {
    ($($name:ident $word:literal)*) => {
        $(pub const $name: u64 = key($word.as_bytes());)*
        const FIRST_WORDS: &[u64] = &[$($name),*];
    };
}

first_words! {
    BUFFER "buffer" ZERO "zero" RING "ring" ENTITY "entity" JOBS "jobs" GO "go" SUBMIT "submit" BEGIN "begin" TRY "try"
    DONE "done" DROP "drop" END "end" PLAN "plan" ARM "arm" PICK "pick" STEP "step" FINISH "finish" TIMEOUT "timeout"
    CANCEL "cancel" REAP "reap" READ "read" FENCE "fence" DUMP "dump" JOB "job" FINAL "final"
}

/// A place in a text that has bytes 00 behind its end, which end every word and are in none.
pub struct Cursor<'t> {
    text: &'t [u8],
    pub at: usize,
    line: usize,
}

impl<'t> Cursor<'t> {
    /// The place before the first line.
    pub fn new(text: &'t [u8]) -> Cursor<'t> {
        Cursor { text, at: 0, line: 0 }
    }

    #[inline]
    pub fn next(&self) -> u8 {
        self.text[self.at]
    }

    /// The byte behind the next one, which is not the end.
    pub fn second(&self) -> u8 {
        self.text[self.at + 1]
    }

    /// Whether these bytes come next; if so they are taken.
    #[inline(always)]
    pub fn takes<const N: usize>(&mut self, bytes: &[u8; N]) -> bool {
        let taken = self.text[self.at..].starts_with(bytes);
        if taken {
            self.at += bytes.len();
        }
        taken
    }

    pub fn is_at_end(&self) -> bool {
        self.at + PADDING == self.text.len()
    }

    #[cold]
    pub fn fault(&self, at: usize, number: u8) -> Ending {
        Ending::Fault { at: at as u32, number }
    }

    pub fn line_fault(&self, number: u8) -> Ending {
        self.fault(self.line, number)
    }

    /// A line begins: its first word, if it has at most seven bytes.
    #[inline]
    pub fn first_word(&mut self) -> u64 {
        self.line = self.at;
        let mut bytes = [0; PADDING];
        bytes.copy_from_slice(&self.text[self.at..self.at + PADDING]);
        let word = u64::from_le_bytes(bytes);
        // The highest bit of the first byte that is no letter, and perhaps of bytes behind it.
        let ends = word.wrapping_sub(u64::MAX / 255 * 0x21) & !word & (u64::MAX / 255 * 0x80);
        let length = ends.trailing_zeros() / 8;
        self.at += length as usize;
        if length < 8 {
            word & ((1 << (8 * length)) - 1)
        } else {
            word
        }
    }

    /// Why a line with this first word may not stand here.
    pub fn misplaced(&self, key: u64) -> Ending {
        let known = FIRST_WORDS.contains(&key) || self.is_at_end() && self.at == self.line;
        self.line_fault(if known { ORDER } else { WORD })
    }

    #[inline]
    pub fn space(&mut self) -> Result<(), Ending> {
        if self.next() != b' ' {
            return Err(self.fault(self.at, WORD));
        }
        self.at += 1;
        Ok(())
    }

    #[inline]
    pub fn line_end(&mut self) -> Result<(), Ending> {
        if self.next() != b'\n' {
            return Err(self.fault(self.at + 1, WORD));
        }
        self.at += 1;
        Ok(())
    }

    #[inline]
    pub fn is_at_word_end(&self) -> bool {
        matches!(self.next(), b' ' | b'\n')
    }

    /// Digits that spell a number up to the limit, which is at least 9.
    #[inline(always)]
    pub fn digits(&mut self, limit: u64) -> Option<u64> {
        let rest = &self.text[self.at..];
        if rest[0].is_ascii_digit() && !rest[1].is_ascii_digit() {
            self.at += 1;
            return Some(u64::from(rest[0] - b'0'));
        }
        let mut value = 0_u64;
        let mut length = 0;
        for byte in rest {
            let digit = byte.wrapping_sub(b'0');
            if digit > 9 {
                break;
            }
            value = value.wrapping_mul(10).wrapping_add(u64::from(digit));
            length += 1;
        }
        self.at += length;
        if length >= 20 {
            value = std::str::from_utf8(&rest[..length]).ok()?.parse().ok()?;
        }
        let is_spelled = length > 1 && rest[0] != b'0';
        (is_spelled && value <= limit).then_some(value)
    }

    /// The next word, which is a number up to the limit.
    #[inline(always)]
    pub fn number(&mut self, limit: u64) -> Result<u64, Ending> {
        self.space()?;
        let start = self.at;
        match self.digits(limit) {
            Some(value) if self.is_at_word_end() => Ok(value),
            _ => Err(self.bad_number(start)),
        }
    }

    #[cold]
    pub fn bad_number(&self, start: usize) -> Ending {
        self.fault(start, if matches!(self.text[start], b' ' | b'\n') { WORD } else { NUMBER })
    }

    #[inline]
    pub fn whole(&mut self) -> Result<u32, Ending> {
        Ok(self.number(u64::from(u32::MAX))? as u32)
    }

    #[inline]
    pub fn short(&mut self) -> Result<u16, Ending> {
        Ok(self.number(u64::from(u16::MAX))? as u16)
    }

    #[inline]
    pub fn moment(&mut self) -> Result<u64, Ending> {
        self.number(u64::MAX)
    }

    /// The next word, which numbers one of so many things.
    #[inline]
    pub fn index(&mut self, count: usize) -> Result<u8, Ending> {
        let start = self.at + 1;
        let value = self.whole()?;
        if value as usize >= count {
            return Err(self.fault(start, NO_SUCH));
        }
        Ok(value as u8)
    }

    pub fn byte(&mut self) -> Option<u8> {
        let high = nibble(self.next())?;
        let low = nibble(self.text[self.at + 1])?;
        self.at += 2;
        Some(high << 4 | low)
    }

    /// The next word, which is bytes; they go behind the list, and their number is told.
    pub fn bytes(&mut self, list: &mut Vec<u8>) -> Result<usize, Ending> {
        self.space()?;
        let start = self.at;
        let length = list.len();
        while let Some(byte) = self.byte() {
            push(list, byte)?;
        }
        if list.len() == length || !self.is_at_word_end() {
            return Err(self.bad_number(start));
        }
        Ok(list.len() - length)
    }

    pub fn word(&self, start: usize) -> &'t [u8] {
        let rest = &self.text[start..];
        &rest[..rest.iter().position(|byte| *byte <= b' ').unwrap_or(rest.len())]
    }
}

fn nibble(digit: u8) -> Option<u8> {
    match digit {
        b'0'..=b'9' => Some(digit - b'0'),
        b'a'..=b'f' => Some(digit - b'a' + 10),
        _ => None,
    }
}

/// Where a fault is told, by line and column, and which one: those of the spelling of the whole line come first.
pub fn place(text: &[u8], at: usize, number: u8) -> (usize, usize, u8) {
    if number == TOO_LONG {
        return (0, 0, number);
    }
    let text = &text[..text.len() - PADDING];
    let at = at.min(text.len());
    let start = text[..at].iter().rposition(|byte| *byte == b'\n').map_or(0, |end| end + 1);
    let line = text[..start].iter().filter(|byte| **byte == b'\n').count() + 1;
    let rest = &text[start..];
    let length = rest.iter().position(|byte| *byte == b'\n').unwrap_or(rest.len());
    if let Some(strange) = rest[..length].iter().position(|byte| !(b' '..=b'~').contains(byte)) {
        (line, strange + 1, NOT_TEXT)
    } else if length == rest.len() && length > 0 {
        (line, length + 1, NO_END)
    } else {
        (line, at - start + 1, number)
    }
}
