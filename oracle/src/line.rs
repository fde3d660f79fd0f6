//! Lines of upper-case hexadecimal.

/// A line as it came, without its line feed.
#[derive(Debug, Clone, PartialEq, Eq)]
pub struct Line {
    pub text: Vec<u8>,
    /// Whether it had its line feed.
    pub ended: bool,
}

impl Line {
    /// A line with its line feed, good or bad.
    pub fn raw(text: impl Into<Vec<u8>>) -> Self {
        Line { text: text.into(), ended: true }
    }

    /// The good line that says `bytes`.
    #[must_use]
    pub fn of(bytes: &[u8]) -> Self {
        Line::raw(hex(bytes))
    }

    /// The same line without its line feed.
    #[must_use]
    pub fn unended(self) -> Self {
        Line { ended: false, ..self }
    }

    /// The bytes of a good line: at least one, each two upper-case digits, and a line feed behind them.
    #[must_use]
    pub fn bytes(&self) -> Option<Vec<u8>> {
        if !self.ended || self.text.is_empty() || !self.text.len().is_multiple_of(2) {
            return None;
        }
        self.text.chunks_exact(2).map(|pair| Some(digit(pair[0])? << 4 | digit(pair[1])?)).collect()
    }
}

/// `bytes` as upper-case digits.
#[must_use]
pub fn hex(bytes: &[u8]) -> Vec<u8> {
    const DIGITS: &[u8; 16] = b"0123456789ABCDEF";
    bytes.iter().flat_map(|byte| [DIGITS[usize::from(byte >> 4)], DIGITS[usize::from(byte & 15)]]).collect()
}

fn digit(character: u8) -> Option<u8> {
    match character {
        b'0'..=b'9' => Some(character - b'0'),
        b'A'..=b'F' => Some(character - b'A' + 10),
        _ => None,
    }
}
