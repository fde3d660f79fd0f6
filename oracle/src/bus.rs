//! The bus that the Rust talks to: every transfer goes to a partner, who says its outcome.

use std::cell::{Cell, RefCell};
use std::future::pending;

use embedded_hal_async::delay::DelayNs;
use embedded_hal_async::i2c::{Error, ErrorType, I2c};

/// The gauge's address and the wait after a failure, as document 01 has them: every transfer and every wait of the Rust is held to them.
pub(crate) const GAUGE_ADDRESS: u8 = 0x0B;
pub(crate) const WAIT_MS: u32 = 10;

/// A write of some bytes, or a write of one command byte and then a read of `count` bytes.
#[derive(Debug, Clone, Copy, PartialEq, Eq)]
pub enum Transfer<'a> {
    Write(&'a [u8]),
    Read { command: u8, count: usize },
}

impl Transfer<'_> {
    /// The number of bytes that an acknowledged transfer brings.
    #[must_use]
    pub const fn asked(&self) -> usize {
        match self {
            Transfer::Write(_) => 0,
            Transfer::Read { count, .. } => *count,
        }
    }
}

/// What became of a transfer.
#[derive(Debug, Clone, PartialEq, Eq)]
pub enum Outcome {
    /// Heard, with exactly the bytes asked.
    Acknowledged(Vec<u8>),
    BusError(u8),
    TimedOut,
}

/// The other end of the bus.
pub trait Partner {
    /// The outcome of `transfer`; with none the call waits for good.
    fn outcome(&mut self, transfer: Transfer<'_>) -> Option<Outcome>;
}

/// A bus error and its code.
#[derive(Debug, Clone, Copy, PartialEq, Eq, PartialOrd, Ord)]
pub struct BusError(pub u8);

impl Error for BusError {}

/// What is noted while a call runs.
#[derive(Debug, Default)]
pub struct Tally {
    pub transfers: Cell<u32>,
    /// The writes among them that were acknowledged.
    pub heard_writes: Cell<u32>,
    /// Each wait, as the number of acknowledged writes before it.
    pub waits: RefCell<Vec<u32>>,
}

/// A bus with a partner.
pub struct Bus<'a, P> {
    pub partner: &'a mut P,
    pub tally: &'a Tally,
}

impl<P: Partner> Bus<'_, P> {
    async fn exchange(&mut self, address: u8, transfer: Transfer<'_>) -> Result<Vec<u8>, BusError> {
        self.tally.transfers.set(self.tally.transfers.get() + 1);
        assert_eq!(address, GAUGE_ADDRESS, "a transfer to another device");
        match self.partner.outcome(transfer) {
            Some(Outcome::Acknowledged(reply)) => Ok(reply),
            Some(Outcome::BusError(code)) => Err(BusError(code)),
            Some(Outcome::TimedOut) => {
                embassy_time::pass_deadline();
                pending().await
            }
            None => pending().await,
        }
    }
}

impl<P> ErrorType for Bus<'_, P> {
    type Error = BusError;
}

impl<P: Partner> I2c for Bus<'_, P> {
    async fn write(&mut self, address: u8, write: &[u8]) -> Result<(), BusError> {
        self.exchange(address, Transfer::Write(write)).await?;
        self.tally.heard_writes.set(self.tally.heard_writes.get() + 1);
        Ok(())
    }

    async fn write_read(&mut self, address: u8, write: &[u8], read: &mut [u8]) -> Result<(), BusError> {
        let &[command] = write else {
            panic!("a read that sends other than one command byte");
        };
        let reply = self.exchange(address, Transfer::Read { command, count: read.len() }).await?;
        read.copy_from_slice(&reply);
        Ok(())
    }
}

/// A delay that is only noted.
pub struct Waits<'a> {
    pub tally: &'a Tally,
}

impl DelayNs for Waits<'_> {
    async fn delay_ms(&mut self, ms: u32) {
        assert_eq!(ms, WAIT_MS, "a wait of another length");
        self.tally.waits.borrow_mut().push(self.tally.heard_writes.get());
    }
}
