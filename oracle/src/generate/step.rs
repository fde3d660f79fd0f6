//! What a generated host answers to a transfer.

use super::rng::Rng;
use crate::bus::Transfer;
use crate::line::Line;
use crate::request::{Kind, Request};

const MAC_CMD: u8 = 0x44;
const MFG_INFO_CMD: u8 = 0x70;
const WRITE_ADDRESS: u8 = 0x16;
const READ_ADDRESS: u8 = 0x17;

/// One answer to a transfer.
#[derive(Debug, Clone, PartialEq, Eq)]
pub enum Step {
    /// Acknowledged, with a right PEC where one is looked at.
    Good,
    /// Acknowledged, with a wrong PEC where one is looked at.
    BadPec,
    Error(u8),
    Timeout,
    /// Acknowledged with so many bytes.
    Bytes(usize),
    /// Any line at all.
    Said(Line),
}

impl Step {
    /// The step in a case's title.
    pub fn words(&self) -> String {
        match self {
            Step::Good => "good".into(),
            Step::BadPec => "bad PEC".into(),
            Step::Error(code) => format!("error {code:02X}"),
            Step::Timeout => "timeout".into(),
            Step::Bytes(count) => format!("{count} bytes"),
            Step::Said(_) => "a line".into(),
        }
    }
}

/// Makes the lines of one case's steps.
pub struct Replies {
    rng: Rng,
    /// The command byte that the call works its replies' PECs out with, where it looks at them.
    pec_command: Option<u8>,
}

impl Replies {
    /// Replies to the transfers of `request`.
    pub fn new(request: &Request, rng: Rng) -> Self {
        Replies { rng, pec_command: pec_command(request) }
    }

    /// The line of `step` in answer to `transfer`.
    pub fn line(&mut self, step: &Step, transfer: &Transfer<'_>) -> Line {
        match step {
            Step::Good => self.acknowledged(transfer, true),
            Step::BadPec => self.acknowledged(transfer, false),
            Step::Error(code) => Line::of(&[0x01, *code]),
            Step::Timeout => Line::of(&[0x02]),
            Step::Bytes(count) => Line::of(&[vec![0x00], self.rng.bytes(*count)].concat()),
            Step::Said(line) => line.clone(),
        }
    }

    /// Whether a wrong PEC can be told from a right one in answer to `transfer`.
    pub fn looks_at_pec(&self, transfer: &Transfer<'_>) -> bool {
        self.pec_command.is_some() && matches!(transfer, Transfer::Read { .. })
    }

    fn acknowledged(&mut self, transfer: &Transfer<'_>, right: bool) -> Line {
        let mut said = vec![0x00];
        said.extend(match (*transfer, self.pec_command) {
            (Transfer::Write(_) | Transfer::Read { count: 0, .. }, _) => Vec::new(),
            (Transfer::Read { count, .. }, None) => self.rng.bytes(count),
            (Transfer::Read { command, count }, Some(pec_command)) => {
                let data = self.rng.bytes(count - 1);
                if right { sealed(pec_command, data) } else { self.damaged(command, pec_command, data) }
            }
        });
        Line::of(&said)
    }

    /// A reply with one bit or its PEC changed, or with the PEC of the command byte that was sent.
    fn damaged(&mut self, sent: u8, pec_command: u8, data: Vec<u8>) -> Vec<u8> {
        if sent != pec_command && self.rng.percent(50) {
            return sealed(sent, data);
        }
        let mut reply = sealed(pec_command, data);
        let last = reply.len() - 1;
        let bit = 1 << self.rng.below(8);
        match self.rng.below(3) {
            0 => reply[last] ^= bit,
            1 => reply[last] ^= self.rng.between(1, 255) as u8,
            _ => reply[self.rng.below(last + 1)] ^= bit,
        }
        reply
    }
}

/// `data` and the PEC of a read that sent `command`.
fn sealed(command: u8, data: Vec<u8>) -> Vec<u8> {
    let covered = [&[WRITE_ADDRESS, command, READ_ADDRESS], data.as_slice()].concat();
    [data, vec![smbus_pec::pec(&covered)]].concat()
}

/// The command byte that the PECs of a call's replies are worked out with, where it looks at them.
fn pec_command(request: &Request) -> Option<u8> {
    if !request.pec_read {
        return None;
    }
    match request.kind {
        Kind::ReadRegister => Some(request.number as u8),
        Kind::ReadMfgInfo => Some(MFG_INFO_CMD),
        Kind::ReadDataflash
        | Kind::DispatchCommand
        | Kind::ReadSecurityKeys
        | Kind::ReadAuthenticationKey
        | Kind::ReadMfgInfoC
        | Kind::ReadChargingVoltageOverride => Some(MAC_CMD),
        _ => None,
    }
}
