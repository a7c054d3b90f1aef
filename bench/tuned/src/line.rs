//! Reading lines, eight bytes at a time.

pub struct Fault {
    pub kind: u8,
    pub column: u32,
}

/// Reads an input in which each line ends with a newline, the last one too, and which has more bytes after that, so that sixteen
/// can be read from any place of a line.
///
/// That the first 80 bytes decide a line needs no test: an event line has at most 56, and a fault is at column 57 or before.
pub struct Reader<'a> {
    input: &'a [u8],
    end: usize,
    start: usize,
    at: usize,
}

/// How many bytes are added to an input at most.
pub const ADDED: usize = 1 + PADDING;
const PADDING: usize = 16;

const ZEROS: u64 = 0x3030_3030_3030_3030;

/// How many of eight bytes are digits before the first other byte. The lowest byte is the first, and each has been xored with
/// the digit 0, so that a digit is its value.
fn digits_in(values: u64) -> usize {
    // The highest bit of each byte that is no digit. Above the lowest such byte others may have it too.
    let others = (values.wrapping_add(0x7676_7676_7676_7676) | values) & 0x8080_8080_8080_8080;
    others.trailing_zeros() as usize / 8
}

/// The number that the first of eight bytes spell, one at least.
fn number_of(values: u64, digits: usize) -> u32 {
    let values = values << (64 - 8 * digits);
    let pairs = (values.wrapping_mul(10 << 8 | 1) >> 8) & 0x00ff_00ff_00ff_00ff;
    let fours = (pairs.wrapping_mul(100 << 16 | 1) >> 16) & 0x0000_ffff_0000_ffff;
    (fours.wrapping_mul(10_000 << 32 | 1) >> 32) as u32
}

impl<'a> Reader<'a> {
    pub fn new(input: &'a mut Vec<u8>) -> Self {
        if input.last().is_some_and(|&byte| byte != b'\n') {
            input.push(b'\n');
        }
        let end = input.len();
        input.extend([0; PADDING]);
        Reader { input, end, start: 0, at: 0 }
    }

    /// Goes to the next line, and gives its first eight bytes, the lowest first.
    #[inline(always)]
    pub fn next_line(&mut self) -> Option<u64> {
        if self.at >= self.end {
            return None;
        }
        self.start = self.at;
        self.at += 1;
        Some(self.eight(self.start))
    }

    /// The eight bytes from a place on.
    #[inline(always)]
    fn eight(&self, at: usize) -> u64 {
        u64::from_le_bytes(*self.input[at..].first_chunk().expect("there is padding after the end"))
    }

    /// The number of a line that has one only, and that begins with these eight bytes.
    #[inline(always)]
    pub fn only_number(&mut self, line: u64) -> Result<u32, Fault> {
        let values = (line >> 16) as u32 ^ ZEROS as u32;
        let others = (values.wrapping_add(0x7676_7676) | values) & 0x8080_8080;
        // Up to three digits, of which the first is not 0, and the newline.
        if (line >> 8) as u8 == b' ' && values as u8 != 0 && others & 0x80 == 0 && others != 0 {
            let place = others.trailing_zeros() & 0x18;
            if (values >> place) as u8 == b'\n' ^ b'0' {
                let values = values << (32 - place);
                let pairs = (values.wrapping_mul(10 << 8 | 1) >> 8) & 0x00ff_00ff;
                self.at += 2 + (place / 8) as usize;
                return Ok(pairs.wrapping_mul(100 << 16 | 1) >> 16);
            }
        }
        let [number] = self.numbers()?;
        Ok(number)
    }

    /// The numbers of a line, each after a space.
    pub fn numbers<const COUNT: usize>(&mut self) -> Result<[u32; COUNT], Fault> {
        let mut numbers = [0; COUNT];
        for number in &mut numbers {
            *number = self.number()?;
        }
        if self.input[self.at] != b'\n' {
            return Err(self.fault(4));
        }
        self.at += 1;
        Ok(numbers)
    }

    #[inline(always)]
    fn number(&mut self) -> Result<u32, Fault> {
        let eight = self.eight(self.at);
        if eight as u8 != b' ' {
            return Err(self.fault(2));
        }
        self.at += 1;
        let values = (eight >> 8) ^ ZEROS;
        let digits = digits_in(values);
        if digits == 0 || digits == 7 || (values as u8 == 0 && digits > 1) {
            return self.long_number();
        }
        self.at += digits;
        Ok(number_of(values, digits))
    }

    /// A number of any length.
    #[cold]
    fn long_number(&mut self) -> Result<u32, Fault> {
        let first = self.eight(self.at) ^ ZEROS;
        let mut digits = digits_in(first);
        if digits == 0 || (first as u8 == 0 && digits > 1) {
            return Err(self.fault(3));
        }
        let mut number = u64::from(number_of(first, digits));
        if digits == 8 {
            let second = self.eight(self.at + 8) ^ ZEROS;
            match digits_in(second) {
                0 => {}
                more @ 1..=2 => {
                    number = number * 10_u64.pow(more as u32) + u64::from(number_of(second, more));
                    digits += more;
                }
                _ => return Err(self.fault(3)),
            }
        }
        let Ok(number) = u32::try_from(number) else { return Err(self.fault(3)) };
        self.at += digits;
        Ok(number)
    }

    /// The fault of a line that does not begin with one of the seven letters.
    pub fn wrong_letter(&mut self) -> Fault {
        self.at = self.start;
        self.fault(1)
    }

    /// A fault at the byte that is due next. The rest of the line is skipped.
    #[cold]
    fn fault(&mut self, kind: u8) -> Fault {
        let column = (self.at - self.start + 1) as u32;
        self.skip_line();
        Fault { kind, column }
    }

    fn skip_line(&mut self) {
        const NEWLINES: u64 = 0x0a0a_0a0a_0a0a_0a0a;
        loop {
            let others = self.eight(self.at) ^ NEWLINES;
            // The highest bit of the lowest byte that is 0.
            let newlines = others.wrapping_sub(0x0101_0101_0101_0101) & !others & 0x8080_8080_8080_8080;
            if newlines != 0 {
                self.at += newlines.trailing_zeros() as usize / 8 + 1;
                return;
            }
            self.at += 8;
            while self.input[self.at..].first_chunk::<32>().is_some_and(has_no_newline) {
                self.at += 32;
            }
        }
    }
}

fn has_no_newline(bytes: &[u8; 32]) -> bool {
    bytes.iter().fold(true, |none, &byte| none & (byte != b'\n'))
}
