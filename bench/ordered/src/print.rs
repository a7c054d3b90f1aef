//! Buffered printing of lines without the cost of format strings.

use std::io::{self, Write};

use crate::price::Quote;

const FLUSH_AT: usize = 64 * 1024;

pub struct Printer<W> {
    to: W,
    buffer: Vec<u8>,
}

pub trait Decimal {
    fn widen(self) -> u64;
}

impl Decimal for u8 {
    fn widen(self) -> u64 {
        self.into()
    }
}

impl Decimal for u16 {
    fn widen(self) -> u64 {
        self.into()
    }
}

impl Decimal for u32 {
    fn widen(self) -> u64 {
        self.into()
    }
}

impl Decimal for usize {
    fn widen(self) -> u64 {
        self as u64
    }
}

impl<W: Write> Printer<W> {
    pub fn new(to: W) -> Self {
        Printer { to, buffer: Vec::with_capacity(FLUSH_AT + 256) }
    }

    pub fn text(&mut self, text: &str) -> &mut Self {
        self.buffer.extend_from_slice(text.as_bytes());
        self
    }

    pub fn number(&mut self, number: impl Decimal) -> &mut Self {
        let mut rest = number.widen();
        let mut digits = [0u8; 20];
        let mut first = digits.len();
        loop {
            first -= 1;
            digits[first] = b'0' + (rest % 10) as u8;
            rest /= 10;
            if rest == 0 {
                break;
            }
        }
        self.buffer.extend_from_slice(&digits[first..]);
        self
    }

    pub fn quote(&mut self, quote: Quote) -> &mut Self {
        self.number(quote.class).text(":").number(quote.top).text("/").number(quote.bottom)
    }

    /// Ends a line.
    pub fn end(&mut self) -> io::Result<()> {
        self.buffer.push(b'\n');
        if self.buffer.len() >= FLUSH_AT {
            self.to.write_all(&self.buffer)?;
            self.buffer.clear();
        }
        Ok(())
    }

    pub fn flush(mut self) -> io::Result<()> {
        self.to.write_all(&self.buffer)?;
        self.to.flush()
    }
}
