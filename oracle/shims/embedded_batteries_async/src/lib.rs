//! A shim of `embedded_batteries_async`: the names that the published Rust's errors use.

#![no_std]

/// Smart battery names.
pub mod smart_battery {
    /// The error code in a battery's status.
    #[derive(Debug, Clone, Copy, PartialEq, Eq, PartialOrd, Ord)]
    pub enum ErrorCode {
        Ok,
        Unknown,
    }

    /// The sort of a driver's error.
    #[derive(Debug, Clone, Copy, PartialEq, Eq, PartialOrd, Ord)]
    pub enum ErrorKind {
        CommError,
        BatteryStatus(ErrorCode),
        Other,
    }

    /// An error that can say its sort.
    pub trait Error: core::fmt::Debug {
        /// The sort of this error.
        fn kind(&self) -> ErrorKind;
    }

    /// The battery mode register.
    #[derive(Debug, Clone, Copy, PartialEq, Eq)]
    pub struct BatteryModeFields(pub u16);

    impl BatteryModeFields {
        /// Capacities are in 10 mW or 10 mWh.
        #[must_use]
        pub const fn capacity_mode(&self) -> bool {
            self.0 & 0x8000 != 0
        }
    }
}
