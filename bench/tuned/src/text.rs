//! Texts: small numbers from tables, and lines in one large buffer.

use std::io::{self, Write};

/// Up to sixteen bytes of text, the first one lowest. It is put together from its end.
#[derive(Clone, Copy)]
pub struct Text {
    bytes: u128,
    length: u8,
}

impl Text {
    pub const EMPTY: Text = Text { bytes: 0, length: 0 };

    const fn preceded_by(self, byte: u8) -> Text {
        Text { bytes: self.bytes << 8 | byte as u128, length: self.length + 1 }
    }

    const fn preceded_by_number(self, number: u32) -> Text {
        let mut text = self;
        let mut rest = number;
        loop {
            text = text.preceded_by(b'0' + (rest % 10) as u8);
            rest /= 10;
            if rest == 0 {
                return text;
            }
        }
    }

    const fn preceded_by_text(self, bytes: &[u8]) -> Text {
        let mut text = self;
        let mut rest = bytes;
        while let [before @ .., last] = rest {
            text = text.preceded_by(*last);
            rest = before;
        }
        text
    }

    pub const fn number(number: u32) -> Text {
        Text::EMPTY.preceded_by_number(number)
    }

    /// The beginning of a quote, of `0:300/2` all but the 2.
    pub fn class_and_top(class: u8, top: u32) -> Text {
        Text::EMPTY.preceded_by(b'/').preceded_by_number(top).preceded_by(b':').preceded_by(b'0' + class)
    }
}

/// Up to seven bytes of text, the first one lowest, and in the highest byte how many they are.
#[derive(Clone, Copy)]
struct Word(u64);

impl Word {
    /// The multiples of a step, from 0 on.
    const fn multiples<const COUNT: usize>(step: u32) -> [Word; COUNT] {
        let mut words = [Word(0); COUNT];
        let mut index = 0;
        while index < COUNT {
            let text = Text::number(step * index as u32);
            words[index] = Word((text.length as u64) << 56 | text.bytes as u64);
            index += 1;
        }
        words
    }
}

static NUMBERS: [Word; 4097] = Word::multiples(1);
static MULTIPLES_OF_25: [Word; 16385] = Word::multiples(25);

static REFUSALS: [Text; 23] = {
    let mut texts = [Text::EMPTY; 23];
    let mut index = 0;
    while index < texts.len() {
        texts[index] = Text::number(index as u32).preceded_by_text(b" refused ");
        index += 1;
    }
    texts
};

/// The number of a line in decimal, of up to eight digits. The first one is the lowest byte.
pub struct Counter {
    digits: u64,
    length: u8,
    /// One in the place of the last digit.
    one: u64,
    /// Below this the last digit is at most 9.
    limit: u64,
}

impl Counter {
    pub fn zero() -> Self {
        Counter { digits: u64::from(b'0'), length: 1, one: 1, limit: u64::from(b'9' + 1) }
    }

    pub fn add_one(&mut self) {
        self.digits += self.one;
        if self.digits >= self.limit {
            self.carry();
        }
    }

    #[cold]
    fn carry(&mut self) {
        let mut digits = self.digits.to_le_bytes();
        let mut place = usize::from(self.length) - 1;
        while digits[place] > b'9' {
            digits[place] = b'0';
            if place == 0 {
                digits.copy_within(0..7, 1);
                digits[0] = b'0';
                self.length += 1;
                self.one <<= 8;
                self.limit <<= 8;
                place = 1;
            }
            place -= 1;
            digits[place] += 1;
        }
        self.digits = u64::from_le_bytes(digits);
    }
}

/// For 256 places where a piece of a line may begin, and the longest piece. The longest line has 87 bytes and a newline.
const ROOM: usize = 256 + 16;
const BUFFER: usize = 64 * 1024;

pub struct Printer<W> {
    to: W,
    buffer: Box<[u8; BUFFER + ROOM]>,
    length: usize,
}

impl<W: Write> Printer<W> {
    pub fn new(to: W) -> Self {
        Printer { to, buffer: Box::new([0; BUFFER + ROOM]), length: 0 }
    }

    /// An empty line, to be filled and then ended.
    pub fn line(&mut self) -> io::Result<Line<'_>> {
        if self.length > BUFFER {
            self.flush()?;
        }
        let room = self.buffer[self.length..].first_chunk_mut().expect("there is room for a line");
        Ok(Line { room, length: 0, printed: &mut self.length })
    }

    pub fn flush(&mut self) -> io::Result<()> {
        self.to.write_all(&self.buffer[..self.length])?;
        self.length = 0;
        Ok(())
    }
}

/// A line to be printed.
pub struct Line<'a> {
    room: &'a mut [u8; ROOM],
    /// In eight bits, so that no test is needed where a piece is written.
    length: u8,
    printed: &'a mut usize,
}

impl Line<'_> {
    #[inline(always)]
    pub fn text<const LENGTH: usize>(&mut self, text: &[u8; LENGTH]) -> &mut Self {
        self.room[usize::from(self.length)..][..LENGTH].copy_from_slice(text);
        self.length += LENGTH as u8;
        self
    }

    #[inline(always)]
    fn eight(&mut self, bytes: u64, length: u8) -> &mut Self {
        self.room[usize::from(self.length)..][..8].copy_from_slice(&bytes.to_le_bytes());
        self.length += length;
        self
    }

    #[inline(always)]
    fn word(&mut self, word: Word) -> &mut Self {
        self.eight(word.0, (word.0 >> 56) as u8)
    }

    /// A number up to 4,096.
    #[inline(always)]
    pub fn number(&mut self, number: u32) -> &mut Self {
        self.word(NUMBERS[number as usize])
    }

    /// 25 times a number up to 16,384.
    #[inline(always)]
    pub fn times_25(&mut self, number: u32) -> &mut Self {
        self.word(MULTIPLES_OF_25[number as usize])
    }

    #[inline(always)]
    pub fn piece(&mut self, text: &Text) -> &mut Self {
        self.room[usize::from(self.length)..][..16].copy_from_slice(&text.bytes.to_le_bytes());
        self.length += text.length;
        self
    }

    #[inline(always)]
    pub fn line_number(&mut self, line: &Counter) -> &mut Self {
        self.eight(line.digits, line.length)
    }

    #[inline(always)]
    pub fn refusal(&mut self, number: u8) -> &mut Self {
        self.piece(&REFUSALS[usize::from(number)])
    }

    #[inline(always)]
    pub fn end(mut self) {
        self.text(b"\n");
        *self.printed += usize::from(self.length);
    }
}
