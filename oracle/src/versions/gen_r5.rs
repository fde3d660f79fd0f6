//! A shim of the generated R5 map: an interface, and the one command that `r5.rs` calls by name.

use device_driver::{AsyncCommandInterface, Block, CommandInterfaceBase, FieldsetMetadata};

/// The command address of `mac_seal`: 44, then 30 00.
const SEAL: u32 = 0x44_30_00;

/// The map over an interface.
pub struct Device<I> {
    interface: I,
}

impl<I> Device<I> {
    /// The map over `interface`.
    pub const fn new(interface: I) -> Self {
        Device { interface }
    }

    /// The command that seals the gauge.
    pub fn mac_seal(&mut self) -> Command<'_, I> {
        Command { interface: &mut self.interface, address: SEAL }
    }
}

impl<I> Block for Device<I> {
    type Interface = I;

    fn interface(&mut self) -> &mut I {
        &mut self.interface
    }
}

/// A command with neither input nor output.
pub struct Command<'a, I> {
    interface: &'a mut I,
    address: u32,
}

impl<I: AsyncCommandInterface<AddressType = u32>> Command<'_, I> {
    /// Sends the command.
    pub async fn dispatch_async(self) -> Result<(), <I as CommandInterfaceBase>::Error> {
        let meta_data = FieldsetMetadata;
        self.interface.dispatch_command(self.address, &mut [], &meta_data, &mut [], &meta_data).await
    }
}
