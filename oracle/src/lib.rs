//! The published bq40z50 Rust on a scripted bus, in the bench program's lines.
//!
//! The files of the published Rust are modules of this crate, so its `pub(crate)` functions can be called.

/// The published file `src/$name`, unchanged; the build has checked its sum.
macro_rules! published {
    ($name:literal) => {
        include!(concat!(env!("OUT_DIR"), "/src/", $name));
    };
}

mod consts {
    published!("consts.rs");
}

#[allow(dead_code)]
mod error {
    published!("error.rs");
}

#[allow(dead_code)]
mod interface {
    published!("interface.rs");
}

mod common {
    /// The published file; its macro is not used, since it needs the generated map.
    #[allow(dead_code, unused_imports, unused_macros)]
    mod whole {
        published!("common.rs");
    }
    pub(crate) use whole::{CapacityModeState, ChargingVoltageOverride, Config};

    /// Of the smart battery calls nothing stays but the name that `r5.rs` takes from them.
    macro_rules! implement_embedded_batteries {
        ($name:ident) => {
            use embedded_batteries_async::smart_battery::BatteryModeFields;
        };
    }
    pub(crate) use implement_embedded_batteries;
}

mod tests {
    /// The published tests are not at hand.
    macro_rules! bq40z50_tests {
        ($($argument:tt)*) => {};
    }
    pub(crate) use bq40z50_tests;
}

#[allow(dead_code)]
mod versions {
    pub mod gen_r5;
    pub mod r5 {
        published!("versions/r5.rs");
    }
}

pub mod answer;
pub mod bench;
pub mod bus;
pub mod call;
pub mod generate;
pub mod line;
pub mod list;
pub mod panics;
pub mod request;
