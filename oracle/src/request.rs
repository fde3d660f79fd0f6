//! The request line: kind, flags, one budget of retries or two, and the arguments of the kind.

/// The largest payload, read length and reply.
pub const LARGEST: usize = 8192;

/// The bytes of a charging voltage override.
const OVERRIDE_LENGTH: usize = 10;

/// Flags that mean nothing: a line that sets one is bad.
const UNKNOWN_FLAGS: u8 = 0b1111_0000;

/// The flag that says that two budgets follow.
const TWO_BUDGETS: u8 = 0b0000_0100;

/// The first two characters of a request line whose kind is retired: the unchecked register calls had these numbers,
/// and no other call is given them.
pub const RETIRED: [&str; 2] = ["0C", "0D"];

/// The public calls that are not retired, with their numbers on the bench.
#[derive(Debug, Clone, Copy, PartialEq, Eq, PartialOrd, Ord)]
#[repr(u8)]
pub enum Kind {
    WriteDataflash = 0x01,
    ReadDataflash = 0x02,
    WriteRegister = 0x03,
    ReadRegister = 0x04,
    DispatchCommand = 0x05,
    BufferRead = 0x06,
    BufferWrite = 0x07,
    ReadSecurityKeys = 0x08,
    WriteSecurityKeys = 0x09,
    ReadAuthenticationKey = 0x0A,
    WriteAuthenticationKey = 0x0B,
    SendAccessKey = 0x0E,
    ReadMfgInfoC = 0x0F,
    WriteMfgInfoC = 0x10,
    ReadMfgInfo = 0x11,
    WriteMfgInfo = 0x12,
    ReadChargingVoltageOverride = 0x13,
    WriteChargingVoltageOverride = 0x14,
    PlainWrite = 0x15,
}

/// What stands behind the header of a request line, in this order.
#[derive(Debug, Clone, Copy)]
pub struct Layout {
    /// The bytes of an address, or of the lower and the upper access key.
    pub number: usize,
    /// A two-byte length of the caller's buffer.
    pub length: bool,
    /// A payload, which is the rest of the line.
    pub payload: bool,
}

/// The shorthand of `Kind::layout`.
const fn layout(number: usize, length: bool, payload: bool) -> Layout {
    Layout { number, length, payload }
}

impl Kind {
    /// Every kind, by its number.
    pub const ALL: [Kind; 19] = [
        Kind::WriteDataflash,
        Kind::ReadDataflash,
        Kind::WriteRegister,
        Kind::ReadRegister,
        Kind::DispatchCommand,
        Kind::BufferRead,
        Kind::BufferWrite,
        Kind::ReadSecurityKeys,
        Kind::WriteSecurityKeys,
        Kind::ReadAuthenticationKey,
        Kind::WriteAuthenticationKey,
        Kind::SendAccessKey,
        Kind::ReadMfgInfoC,
        Kind::WriteMfgInfoC,
        Kind::ReadMfgInfo,
        Kind::WriteMfgInfo,
        Kind::ReadChargingVoltageOverride,
        Kind::WriteChargingVoltageOverride,
        Kind::PlainWrite,
    ];

    /// The kind with this number.
    #[must_use]
    pub fn numbered(number: u8) -> Option<Self> {
        Self::ALL.into_iter().find(|kind| *kind as u8 == number)
    }

    /// The call's name, as the Rust has it where it is public.
    #[must_use]
    pub fn name(self) -> String {
        let words = format!("{self:?}");
        let snake = |letter: char| match letter.is_uppercase() {
            true => format!("_{}", letter.to_lowercase()),
            false => letter.to_string(),
        };
        words.chars().map(snake).collect::<String>().trim_start_matches('_').to_owned()
    }

    /// What stands behind the header.
    #[must_use]
    pub const fn layout(self) -> Layout {
        match self {
            Kind::WriteDataflash => layout(2, false, true),
            Kind::ReadDataflash => layout(2, true, false),
            Kind::WriteRegister | Kind::BufferWrite => layout(1, false, true),
            Kind::ReadRegister | Kind::BufferRead => layout(1, true, false),
            Kind::DispatchCommand => layout(4, true, true),
            Kind::ReadSecurityKeys | Kind::ReadAuthenticationKey | Kind::ReadChargingVoltageOverride => {
                layout(0, false, false)
            }
            Kind::WriteSecurityKeys | Kind::WriteAuthenticationKey | Kind::WriteChargingVoltageOverride => {
                layout(0, false, true)
            }
            Kind::SendAccessKey => layout(4, false, false),
            Kind::WriteMfgInfoC => layout(4, false, true),
            Kind::ReadMfgInfoC | Kind::ReadMfgInfo => layout(0, true, false),
            Kind::WriteMfgInfo | Kind::PlainWrite => layout(0, false, true),
        }
    }
}

/// The retries that a line states.
#[derive(Debug, Clone, Copy, PartialEq, Eq)]
pub enum Retries {
    /// One number, which fills both budgets.
    Both(u16),
    /// A budget of each side, the write budget first.
    Each(u16, u16),
}

impl Retries {
    /// The budget of a side.
    #[must_use]
    pub const fn of(self, side: Side) -> u16 {
        match (self, side) {
            (Retries::Both(both), _) => both,
            (Retries::Each(write, _), Side::Write) => write,
            (Retries::Each(_, read), Side::Read) => read,
        }
    }
}

/// What a call does, and so the budget that every transfer of it goes by.
#[derive(Debug, Clone, Copy, PartialEq, Eq)]
pub enum Side {
    Write,
    Read,
}

/// A call with its setting and its arguments; those that its kind lacks are 0 and empty.
#[derive(Debug, Clone, PartialEq, Eq)]
pub struct Request {
    pub kind: Kind,
    pub pec_write: bool,
    pub pec_read: bool,
    pub growing_waits: bool,
    pub retries: Retries,
    /// The address, or the lower access key and, above it, the upper one.
    pub number: u32,
    /// The length of the caller's buffer, where the line states it.
    pub length: u16,
    pub payload: Vec<u8>,
}

impl Request {
    /// The request that a line's bytes say, if they say one.
    #[must_use]
    pub fn from_bytes(bytes: &[u8]) -> Option<Self> {
        let mut rest = Rest(bytes);
        let kind = Kind::numbered(rest.byte()?)?;
        let flags = rest.byte()?;
        let layout = kind.layout();
        let request = Request {
            kind,
            pec_write: flags & 1 != 0,
            pec_read: flags & 2 != 0,
            growing_waits: flags & 8 != 0,
            retries: rest.retries(flags)?,
            number: rest.number(layout.number)?,
            length: if layout.length { rest.number(2)? as u16 } else { 0 },
            payload: if layout.payload { rest.all().to_vec() } else { Vec::new() },
        };
        (flags & UNKNOWN_FLAGS == 0 && rest.0.is_empty() && request.fits()).then_some(request)
    }

    /// The bytes that say the request, also where a length is over the limit.
    #[must_use]
    pub fn to_bytes(&self) -> Vec<u8> {
        let layout = self.kind.layout();
        let mut bytes = vec![self.kind as u8, self.flags()];
        match self.retries {
            Retries::Both(both) => bytes.extend(both.to_le_bytes()),
            Retries::Each(write, read) => bytes.extend([write.to_le_bytes(), read.to_le_bytes()].concat()),
        }
        bytes.extend(&self.number.to_le_bytes()[..layout.number]);
        if layout.length {
            bytes.extend(self.length.to_le_bytes());
        }
        bytes.extend(&self.payload);
        bytes
    }

    /// The flags byte.
    #[must_use]
    pub fn flags(&self) -> u8 {
        let budgets = if matches!(self.retries, Retries::Each(..)) { TWO_BUDGETS } else { 0 };
        u8::from(self.pec_write) | u8::from(self.pec_read) << 1 | budgets | u8::from(self.growing_waits) << 3
    }

    /// The side of the call (document 02, W-211). The command frame of a MAC read and the address frame of a data-flash read are parts of a
    /// read. A command with no output is one write; with output it is a MAC read.
    #[must_use]
    pub const fn side(&self) -> Side {
        match self.kind {
            Kind::ReadDataflash
            | Kind::ReadRegister
            | Kind::BufferRead
            | Kind::ReadSecurityKeys
            | Kind::ReadAuthenticationKey
            | Kind::ReadMfgInfoC
            | Kind::ReadMfgInfo
            | Kind::ReadChargingVoltageOverride => Side::Read,
            Kind::WriteDataflash
            | Kind::WriteRegister
            | Kind::BufferWrite
            | Kind::WriteSecurityKeys
            | Kind::WriteAuthenticationKey
            | Kind::SendAccessKey
            | Kind::WriteMfgInfoC
            | Kind::WriteMfgInfo
            | Kind::WriteChargingVoltageOverride
            | Kind::PlainWrite => Side::Write,
            Kind::DispatchCommand if self.length == 0 => Side::Write,
            Kind::DispatchCommand => Side::Read,
        }
    }

    /// The budget that the call goes by.
    #[must_use]
    pub const fn budget(&self) -> u16 {
        self.retries.of(self.side())
    }

    /// The length of the buffer that a reading call fills.
    #[must_use]
    pub fn buffer_length(&self) -> Option<usize> {
        match self.kind {
            Kind::ReadSecurityKeys => Some(28),
            Kind::ReadAuthenticationKey => Some(16),
            Kind::ReadChargingVoltageOverride => Some(OVERRIDE_LENGTH),
            kind if kind.layout().length => Some(usize::from(self.length)),
            _ => None,
        }
    }

    /// Whether every length is one that a line may have.
    fn fits(&self) -> bool {
        usize::from(self.length) <= LARGEST
            && self.payload.len() <= LARGEST
            && (self.kind != Kind::WriteChargingVoltageOverride || self.payload.len() == OVERRIDE_LENGTH)
    }
}

/// The part of a line that is not yet taken.
struct Rest<'a>(&'a [u8]);

impl<'a> Rest<'a> {
    fn byte(&mut self) -> Option<u8> {
        let (first, rest) = self.0.split_first()?;
        self.0 = rest;
        Some(*first)
    }

    /// A number of `width` bytes, low byte first.
    fn number(&mut self, width: usize) -> Option<u32> {
        (0..width).try_fold(0, |number, place| Some(number | u32::from(self.byte()?) << (8 * place)))
    }

    /// One budget, or two where the flags say so.
    fn retries(&mut self, flags: u8) -> Option<Retries> {
        let first = self.number(2)? as u16;
        if flags & TWO_BUDGETS == 0 {
            return Some(Retries::Both(first));
        }
        Some(Retries::Each(first, self.number(2)? as u16))
    }

    fn all(&mut self) -> &'a [u8] {
        std::mem::take(&mut self.0)
    }
}
