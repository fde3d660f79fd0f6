//! A shim of `embassy_time` without a clock: a deadline passes when the bus says so.

use std::cell::Cell;
use std::future::{Future, poll_fn};
use std::pin::pin;
use std::task::Poll;

/// A length of time; only carried about here.
#[derive(Debug, Clone, Copy, PartialEq, Eq, PartialOrd, Ord)]
pub struct Duration {
    millis: u64,
}

impl Duration {
    /// So many milliseconds.
    #[must_use]
    pub const fn from_millis(millis: u64) -> Self {
        Duration { millis }
    }

    /// The length in milliseconds.
    #[must_use]
    pub const fn as_millis(&self) -> u64 {
        self.millis
    }
}

/// The deadline passed first.
#[derive(Debug, Clone, Copy, PartialEq, Eq)]
pub struct TimeoutError;

thread_local! {
    static DEADLINE_PASSED: Cell<bool> = const { Cell::new(false) };
}

/// Lets the deadline of the operation that is now pending pass.
pub fn pass_deadline() {
    DEADLINE_PASSED.set(true);
}

/// The outcome of `future`, unless the deadline passes while it is pending.
pub async fn with_timeout<F: Future>(_timeout: Duration, future: F) -> Result<F::Output, TimeoutError> {
    let mut future = pin!(future);
    poll_fn(move |context| match future.as_mut().poll(context) {
        Poll::Ready(output) => Poll::Ready(Ok(output)),
        Poll::Pending if DEADLINE_PASSED.replace(false) => Poll::Ready(Err(TimeoutError)),
        Poll::Pending => Poll::Pending,
    })
    .await
}
