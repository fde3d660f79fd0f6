//! Generators of cases, each answered by the Rust.

mod boundaries;
mod exhaustive;
mod random;
mod rng;
mod sample;
mod step;

pub use boundaries::boundaries;
pub use exhaustive::{DEPTH, exhaustive};
pub use random::random;
pub use sample::sample;

use rng::Rng;

use crate::bench::Report;
use crate::list::Case;
use crate::request::{Kind, Request, Retries, Side};

/// Takes each generated case with what its run came to; a title is a section, a colon and more words.
pub type Sink<'a> = &'a mut dyn FnMut(Case, Report);

/// A call whose buffer, or else whose payload, has `length` bytes.
fn request(kind: Kind, number: u32, length: usize, rng: &mut Rng) -> Request {
    let layout = kind.layout();
    Request {
        kind,
        pec_write: false,
        pec_read: false,
        growing_waits: false,
        retries: Retries::Both(0),
        number,
        length: if layout.length { u16::try_from(length).expect("a length has two bytes") } else { 0 },
        payload: if layout.payload && !layout.length { rng.bytes(length) } else { Vec::new() },
    }
}

/// The same call with another setting.
fn with_setting(request: &Request, flags: u8, retries: u16) -> Request {
    Request {
        pec_write: flags & 1 != 0,
        pec_read: flags & 2 != 0,
        growing_waits: flags & 8 != 0,
        retries: Retries::Both(retries),
        ..request.clone()
    }
}

/// The same call with another setting that has two budgets, the write budget first; the flag that says so is added to the others.
fn with_budgets(request: &Request, flags: u8, (write, read): (u16, u16)) -> Request {
    Request { retries: Retries::Each(write, read), ..with_setting(request, flags, 0) }
}

/// Call and setting in a case's title.
fn words(request: &Request) -> String {
    let retries = match request.retries {
        Retries::Both(both) => both.to_string(),
        Retries::Each(write, read) => {
            let side = if request.side() == Side::Write { "a write" } else { "a read" };
            format!("{write} and {read}, {side}")
        }
    };
    format!("{}, flags {}, retries {retries}", request.kind.name(), request.flags())
}
