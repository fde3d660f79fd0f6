//! A shim of `embedded_hal_async`: the parts of its traits that the published Rust calls.

#![no_std]
#![allow(async_fn_in_trait)]

/// A bus with one master.
pub mod i2c {
    /// What a failed transfer says of itself.
    pub trait Error: core::fmt::Debug {}

    /// The error of a bus.
    pub trait ErrorType {
        type Error: Error;
    }

    /// Transfers to a device at a seven-bit address.
    pub trait I2c: ErrorType {
        /// Sends `write`.
        async fn write(&mut self, address: u8, write: &[u8]) -> Result<(), Self::Error>;

        /// Sends `write`, then fills `read`.
        async fn write_read(&mut self, address: u8, write: &[u8], read: &mut [u8])
        -> Result<(), Self::Error>;
    }
}

/// Waiting.
pub mod delay {
    /// A wait of a stated length.
    pub trait DelayNs {
        /// Waits `ms` milliseconds.
        async fn delay_ms(&mut self, ms: u32);
    }
}
