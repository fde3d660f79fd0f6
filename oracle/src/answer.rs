//! The answers of document 01 and of the requests since, by number.

use crate::bus::BusError;
use crate::error::BQ40Z50Error;

pub const DONE: u8 = 0;
pub const I2C: u8 = 1;
pub const TIMEOUT: u8 = 2;
pub const PEC: u8 = 3;
pub const DATA_TOO_LARGE: u8 = 4;
pub const ADDRESS_OUT_OF_RANGE: u8 = 5;
pub const PARTIAL_WRITE: u8 = 6;
pub const NOT_A_COMMAND: u8 = 7;
pub const WRONG_BUFFER: u8 = 8;
pub const WRONG_REPLY: u8 = 9;
pub const BAD_LINE: u8 = 11;
pub const RETIRED_KIND: u8 = 15;

/// How a call ended: a number, and a code or a committed count beside it.
#[derive(Debug, Clone, Copy, PartialEq, Eq)]
pub struct Answer {
    pub number: u8,
    pub detail: u16,
}

impl Answer {
    /// An answer that has nothing beside its number.
    #[must_use]
    pub const fn plain(number: u8) -> Self {
        Answer { number, detail: 0 }
    }
}

/// The paper's number and detail of what the Rust returned.
pub(crate) fn of_result(result: Result<(), BQ40Z50Error<BusError>>) -> Answer {
    let Err(error) = result else {
        return Answer::plain(DONE);
    };
    match error {
        BQ40Z50Error::I2c(BusError(code)) => Answer { number: I2C, detail: u16::from(code) },
        BQ40Z50Error::Timeout => Answer::plain(TIMEOUT),
        BQ40Z50Error::Pec => Answer::plain(PEC),
        BQ40Z50Error::DataTooLarge => Answer::plain(DATA_TOO_LARGE),
        BQ40Z50Error::DataFlashAddressOutOfRange => Answer::plain(ADDRESS_OUT_OF_RANGE),
        BQ40Z50Error::PartialDataFlashWrite { committed } => Answer {
            number: PARTIAL_WRITE,
            detail: u16::try_from(committed).expect("data flash is 8,192 bytes"),
        },
        BQ40Z50Error::BatteryStatus(_) | BQ40Z50Error::CapacityModeMismatch => {
            unreachable!("the smart battery calls are left behind")
        }
    }
}
