//! Event lines.

const LINE_LIMIT: usize = 80;

pub enum Event {
    Start { unit: u32, frames: u32 },
    Admit { client: u32, shares: u32, class: u32, minimum: u32, maximum: u32 },
    Ask { client: u32 },
    HandBack { client: u32 },
    Leave { client: u32 },
    Estimate { client: u32, active: u32, end: u32 },
    Clock { tick: u32 },
}

pub struct Fault {
    pub kind: u8,
    pub column: usize,
}

/// The lines of an input; text after the last newline is a line unless it is empty.
pub fn lines(input: &[u8]) -> impl Iterator<Item = &[u8]> {
    let text = input.strip_suffix(b"\n").unwrap_or(input);
    let count = if input.is_empty() { 0 } else { usize::MAX };
    text.split(|&byte| byte == b'\n').take(count)
}

struct Reader<'a> {
    line: &'a [u8],
    place: usize,
}

impl Reader<'_> {
    fn fault<T>(&self, kind: u8) -> Result<T, Fault> {
        Err(Fault { kind, column: self.place + 1 })
    }

    fn field(&mut self) -> Result<u32, Fault> {
        if self.line.get(self.place) != Some(&b' ') {
            return self.fault(2);
        }
        self.place += 1;
        let rest = &self.line[self.place..];
        let length = rest.iter().take_while(|byte| byte.is_ascii_digit()).count();
        let digits = &rest[..length];
        if length == 0 || length > 10 || (length > 1 && digits[0] == b'0') {
            return self.fault(3);
        }
        let value = digits.iter().fold(0u64, |value, digit| value * 10 + u64::from(digit - b'0'));
        match u32::try_from(value) {
            Ok(value) => {
                self.place += length;
                Ok(value)
            }
            Err(_) => self.fault(3),
        }
    }

    fn finish(&self) -> Result<(), Fault> {
        if self.place < self.line.len() {
            return self.fault(4);
        }
        Ok(())
    }
}

impl Event {
    pub fn read(line: &[u8]) -> Result<Event, Fault> {
        let line = &line[..line.len().min(LINE_LIMIT)];
        let mut reader = Reader { line, place: 1 };
        let event = match line.first() {
            Some(b'S') => Event::Start { unit: reader.field()?, frames: reader.field()? },
            Some(b'A') => Event::Admit {
                client: reader.field()?,
                shares: reader.field()?,
                class: reader.field()?,
                minimum: reader.field()?,
                maximum: reader.field()?,
            },
            Some(b'Q') => Event::Ask { client: reader.field()? },
            Some(b'H') => Event::HandBack { client: reader.field()? },
            Some(b'L') => Event::Leave { client: reader.field()? },
            Some(b'E') => {
                Event::Estimate { client: reader.field()?, active: reader.field()?, end: reader.field()? }
            }
            Some(b'T') => Event::Clock { tick: reader.field()? },
            _ => return Err(Fault { kind: 1, column: 1 }),
        };
        reader.finish()?;
        Ok(event)
    }
}
