//! A shim of `smbus_pec`, written from the SMBus rule: CRC-8 with polynomial
//! x^8 + x^2 + x + 1, start 0, high bit first, no final change.

#![no_std]

use core::hash::Hasher;

/// The polynomial without its highest term.
const POLYNOMIAL: u8 = 0x07;

/// The check byte of each single byte.
const TABLE: [u8; 256] = table();

const fn table() -> [u8; 256] {
    let mut table = [0; 256];
    let mut byte = 0;
    while byte < 256 {
        table[byte] = eight_bits(byte as u8);
        byte += 1;
    }
    table
}

const fn eight_bits(mut state: u8) -> u8 {
    let mut bit = 0;
    while bit < 8 {
        let carry = state & 0x80 != 0;
        state <<= 1;
        if carry {
            state ^= POLYNOMIAL;
        }
        bit += 1;
    }
    state
}

/// A check byte in the making.
#[derive(Debug, Clone, Copy, Default)]
pub struct Pec {
    state: u8,
}

impl Pec {
    /// The check byte of nothing.
    #[must_use]
    pub const fn new() -> Self {
        Pec { state: 0 }
    }
}

impl Hasher for Pec {
    fn write(&mut self, bytes: &[u8]) {
        for byte in bytes {
            self.state = TABLE[usize::from(self.state ^ byte)];
        }
    }

    fn finish(&self) -> u64 {
        u64::from(self.state)
    }
}

/// The check byte of `bytes`.
#[must_use]
pub fn pec(bytes: &[u8]) -> u8 {
    let mut pec = Pec::new();
    pec.write(bytes);
    pec.state
}

#[cfg(test)]
mod figures {
    use super::pec;

    #[test]
    fn the_figures_of_document_01() {
        assert_eq!(pec(&[]), 0x00);
        assert_eq!(pec(&[0x01]), 0x07);
        assert_eq!(pec(&[0x80]), 0x89);
        assert_eq!(pec(&[0x16]), 0x62);
        assert_eq!(pec(&[0x16, 0x44]), 0xF2);
        assert_eq!(pec(&[0x16, 0x44, 0x02, 0x00, 0x40]), 0xAB);
    }

    #[test]
    fn the_check_value_of_crc_8() {
        assert_eq!(pec(b"123456789"), 0xF4);
    }
}
