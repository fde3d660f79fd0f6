//! One call of the Rust, from its start until it ends or waits for good.

use std::future::Future;
use std::iter::repeat;
use std::panic::{AssertUnwindSafe, catch_unwind};
use std::pin::pin;
use std::task::{Context, Poll, Waker};

use device_driver::{
    AsyncBufferInterface, AsyncCommandInterface, AsyncRegisterInterface, Block, FieldsetMetadata,
};

use crate::answer::{self, Answer};
use crate::bus::{Bus, BusError, GAUGE_ADDRESS, Partner, Tally, WAIT_MS, Waits};
use crate::common::{ChargingVoltageOverride, Config};
use crate::error::BQ40Z50Error;
use crate::panics::{self, Panic};
use crate::request::{Kind, Request};
use crate::versions::r5::Bq40z50R5;

/// What a buffer holds before anything is read.
const UNREAD: u8 = 0xA5;

/// What is left of a call.
#[derive(Debug)]
pub struct Run {
    /// None where the call still waits.
    pub answer: Option<Answer>,
    pub waits: u32,
    /// How long they were in all, in milliseconds.
    pub waited_ms: u32,
    pub transfers: u32,
    /// The buffer of a reading call, as it stands.
    pub buffer: Option<Vec<u8>>,
    /// The panic that the answer stands for.
    pub panic: Option<Panic>,
}

type Gauge<'a, P> = Bq40z50R5<Bus<'a, P>, Waits<'a>>;
type Answered = Result<(), BQ40Z50Error<BusError>>;

/// Runs `request` on the Rust, with `partner` at the other end of the bus.
pub fn run(request: &Request, partner: &mut impl Partner) -> Run {
    let tally = Tally::default();
    let mut buffer = request.buffer_length().map(|length| vec![UNREAD; length]);
    let (answer, panic) = if has_wrong_buffer(request) {
        (Some(Answer::plain(answer::WRONG_BUFFER)), None)
    } else {
        let bus = Bus { partner, tally: &tally };
        let mut gauge = Bq40z50R5::new_with_config(bus, Waits { tally: &tally }, config(request));
        let lent = buffer.as_deref_mut().unwrap_or_default();
        let polled = caught(|| poll_once(call(&mut gauge, request, lent)));
        ending(request, polled, &tally)
    };
    let waits = tally.waits.into_inner();
    Run {
        answer,
        waits: counted(waits.len()),
        waited_ms: waited_ms(request, &waits),
        transfers: tally.transfers.get(),
        buffer,
        panic,
    }
}

/// The milliseconds of a call's waits, each of which is told by the number of acknowledged writes before it. The Rust's are all of one
/// length. Where waits grow, which the Rust knows nothing of, the first of a budget is 10, then come 20 and 40, and every later one is
/// 80 (document 02, W-203). A reading call has one budget; in a writing call an acknowledged write is the end of a frame's.
fn waited_ms(request: &Request, waits: &[u32]) -> u32 {
    if !request.growing_waits {
        return WAIT_MS * counted(waits.len());
    }
    let reading = request.buffer_length().is_some();
    let budgets = waits.chunk_by(|before, after| reading || before == after);
    budgets.flat_map(|budget| [10, 20, 40].into_iter().chain(repeat(80)).take(budget.len())).sum()
}

fn counted(waits: usize) -> u32 {
    u32::try_from(waits).expect("each block has 65,535 waits at most")
}

/// A key of another length: the Rust takes arrays, so no call of it could be written.
fn has_wrong_buffer(request: &Request) -> bool {
    match request.kind {
        Kind::WriteSecurityKeys => request.payload.len() != 28,
        Kind::WriteAuthenticationKey => request.payload.len() != 16,
        _ => false,
    }
}

/// The settings that a driver starts with, and what its bus is held to, as the program `starts` of the port has them: the Rust's one number of
/// retries fills the write budget and the read budget.
#[must_use]
pub fn default_settings() -> String {
    let config = Config::new();
    let both = config.max_bus_retries;
    let pec = u8::from;
    format!(
        "Config::new : retries {both} and {both}, pec_write {}, pec_read {}\nbus : address {GAUGE_ADDRESS:02x}, wait {WAIT_MS}",
        pec(config.pec_write),
        pec(config.pec_read)
    )
}

/// The Rust's setting, whose one number of retries is the budget of the call's side.
fn config(request: &Request) -> Config {
    Config {
        max_bus_retries: usize::from(request.budget()),
        pec_read: request.pec_read,
        pec_write: request.pec_write,
        ..Config::new()
    }
}

fn caught<T>(action: impl FnOnce() -> T) -> Result<T, Panic> {
    panics::noted(|| catch_unwind(AssertUnwindSafe(action)).map_err(|_| ()))
}

/// Polls once: every transfer is over at once or never.
fn poll_once<F: Future>(future: F) -> Poll<F::Output> {
    pin!(future).poll(&mut Context::from_waker(Waker::noop()))
}

fn ending(
    request: &Request,
    polled: Result<Poll<Answered>, Panic>,
    tally: &Tally,
) -> (Option<Answer>, Option<Panic>) {
    match polled {
        Ok(Poll::Ready(result)) => (Some(answer::of_result(result)), None),
        Ok(Poll::Pending) => (None, None),
        Err(panic) => {
            assert_eq!(tally.transfers.get(), 0, "{request:?} met a panic after a transfer: {panic}");
            let Some(number) = refusal_for_panic(request) else {
                panic!("{request:?} met a panic that document 01 has no refusal for: {panic}");
            };
            (Some(Answer::plain(number)), Some(panic))
        }
    }
}

/// The refusal that document 01 puts in a panic's place, exactly where it does.
fn refusal_for_panic(request: &Request) -> Option<u8> {
    let length = request.payload.len();
    match request.kind {
        Kind::DispatchCommand if length > 0 => Some(answer::NOT_A_COMMAND),
        Kind::PlainWrite if request.pec_write && length > 38 => Some(answer::DATA_TOO_LARGE),
        _ => None,
    }
}

/// The call by its own name in the Rust.
async fn call<P: Partner>(gauge: &mut Gauge<'_, P>, request: &Request, buffer: &mut [u8]) -> Answered {
    let payload = request.payload.as_slice();
    let register = request.number as u8;
    let address = request.number as u16;
    let (lower, upper) = (request.number as u16, (request.number >> 16) as u16);
    match request.kind {
        Kind::WriteDataflash => gauge.write_dataflash(address, payload).await,
        Kind::ReadDataflash => gauge.read_dataflash(address, buffer).await,
        Kind::WriteRegister => {
            let mut data = payload.to_vec();
            gauge.device.interface().write_register(register, &mut data, &FieldsetMetadata).await
        }
        Kind::ReadRegister => {
            gauge.device.interface().read_register(register, buffer, &FieldsetMetadata).await
        }
        Kind::DispatchCommand => {
            let mut input = payload.to_vec();
            let interface = gauge.device.interface();
            let meta_data = FieldsetMetadata;
            interface.dispatch_command(request.number, &mut input, &meta_data, buffer, &meta_data).await
        }
        Kind::BufferRead => whole(buffer.len(), gauge.device.interface().read(register, buffer).await),
        Kind::BufferWrite => whole(payload.len(), gauge.device.interface().write(register, payload).await),
        Kind::ReadSecurityKeys => gauge.read_security_keys(array_mut(buffer)).await,
        Kind::WriteSecurityKeys => gauge.write_security_keys(array(payload)).await,
        Kind::ReadAuthenticationKey => gauge.read_authentication_key(array_mut(buffer)).await,
        Kind::WriteAuthenticationKey => gauge.write_authentication_key(array(payload)).await,
        Kind::SendAccessKey => gauge.send_access_key(lower, upper).await,
        Kind::ReadMfgInfoC => gauge.read_mfg_info_c(buffer).await,
        Kind::WriteMfgInfoC => gauge.write_mfg_info_c(lower, upper, payload).await,
        Kind::ReadMfgInfo => gauge.read_mfg_info(buffer).await,
        Kind::WriteMfgInfo => gauge.write_mfg_info(payload).await,
        Kind::ReadChargingVoltageOverride => read_override(gauge, array_mut(buffer)).await,
        Kind::WriteChargingVoltageOverride => {
            gauge.write_charging_voltage_override(&figures(array(payload))).await
        }
        Kind::PlainWrite => gauge.device.interface().write_with_retries(payload, request.pec_write).await,
    }
}

/// A buffer access, which says how many bytes it moved: all of them.
fn whole(length: usize, moved: Result<usize, BQ40Z50Error<BusError>>) -> Answered {
    moved.map(|count| assert_eq!(count, length, "a buffer access that moved a part"))
}

async fn read_override<P: Partner>(gauge: &mut Gauge<'_, P>, buffer: &mut [u8; 10]) -> Answered {
    let read = gauge.read_charging_voltage_override().await?;
    let figures = [
        read.low_temp_chrg_mv,
        read.std_low_temp_chrg_mv,
        read.std_hi_temp_chrg_mv,
        read.hi_temp_chrg_mv,
        read.recommended_temp_chrg_mv,
    ];
    for (bytes, figure) in buffer.chunks_exact_mut(2).zip(figures) {
        bytes.copy_from_slice(&figure.to_le_bytes());
    }
    Ok(())
}

/// The five figures that ten bytes say, low byte first.
fn figures(bytes: &[u8; 10]) -> ChargingVoltageOverride {
    let figure = |place: usize| i16::from_le_bytes([bytes[2 * place], bytes[2 * place + 1]]);
    ChargingVoltageOverride {
        low_temp_chrg_mv: figure(0),
        std_low_temp_chrg_mv: figure(1),
        std_hi_temp_chrg_mv: figure(2),
        hi_temp_chrg_mv: figure(3),
        recommended_temp_chrg_mv: figure(4),
    }
}

fn array<const N: usize>(bytes: &[u8]) -> &[u8; N] {
    bytes.try_into().expect("the length was checked")
}

fn array_mut<const N: usize>(bytes: &mut [u8]) -> &mut [u8; N] {
    bytes.try_into().expect("the length is the call's own")
}
