//! A shim of `device_driver`: the interface traits that the published Rust implements.

#![no_std]
#![allow(async_fn_in_trait)]

use core::future::Future;

/// What a generated map says of a field set; the published Rust never looks at it.
pub struct FieldsetMetadata;

/// A generated map, or a part of one, over an interface.
pub trait Block {
    type Interface;

    /// The interface that the map talks through.
    fn interface(&mut self) -> &mut Self::Interface;
}

/// The types of register access.
pub trait RegisterInterfaceBase {
    type Error;
    type AddressType: Copy;
}

/// Register access.
pub trait AsyncRegisterInterface: RegisterInterfaceBase {
    /// Writes `data` to a register.
    async fn write_register(
        &mut self,
        address: Self::AddressType,
        data: &mut [u8],
        meta_data: &FieldsetMetadata,
    ) -> Result<(), Self::Error>;

    /// Fills `data` from a register.
    async fn read_register(
        &mut self,
        address: Self::AddressType,
        data: &mut [u8],
        meta_data: &FieldsetMetadata,
    ) -> Result<(), Self::Error>;
}

/// The types of command access.
pub trait CommandInterfaceBase {
    type Error;
    type AddressType: Copy;
}

/// Command access.
pub trait AsyncCommandInterface: CommandInterfaceBase {
    /// Sends a command with its input and fills its output.
    async fn dispatch_command(
        &mut self,
        address: Self::AddressType,
        input: &mut [u8],
        meta_data_in: &FieldsetMetadata,
        output: &mut [u8],
        meta_data_out: &FieldsetMetadata,
    ) -> Result<(), Self::Error>;
}

/// The types of buffer access.
pub trait BufferInterfaceBase {
    type Error;
    type AddressType: Copy;
}

/// Buffer access.
pub trait AsyncBufferInterface: BufferInterfaceBase {
    /// Fills `buf` and says how many bytes it took.
    async fn read(&mut self, address: Self::AddressType, buf: &mut [u8]) -> Result<usize, Self::Error>;

    /// Writes `buf` and says how many bytes went out.
    async fn write(&mut self, address: Self::AddressType, buf: &[u8]) -> Result<usize, Self::Error>;

    /// Waits until all is written.
    fn flush(&mut self, address: Self::AddressType) -> impl Future<Output = Result<(), Self::Error>>;
}
