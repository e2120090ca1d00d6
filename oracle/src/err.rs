//! Stand-in: a failed allocation is `USBError::NoMemory`.
pub use usb_if::err::USBError;

pub type Result<T = ()> = core::result::Result<T, USBError>;

pub struct HostError;

impl From<dma_api::DmaError> for HostError {
    fn from(_: dma_api::DmaError) -> Self {
        Self
    }
}

impl From<HostError> for USBError {
    fn from(_: HostError) -> Self {
        USBError::NoMemory
    }
}
