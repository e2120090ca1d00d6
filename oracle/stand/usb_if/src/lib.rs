//! Stand-in for the names of `usb_if` that the published files use. What of it is assumed and not known is said in
//! oracle/README.md.
pub mod descriptor {
    #[derive(Clone, Copy, Debug, PartialEq, Eq)]
    pub enum EndpointType {
        Control,
        Isochronous,
        Bulk,
        Interrupt,
    }

    pub struct DescriptorType;

    impl DescriptorType {
        pub const DEVICE: Self = Self;
    }

    pub struct DeviceDescriptorBase {
        pub max_packet_size_0: u8,
    }

    pub struct DeviceDescriptor {
        pub num_configurations: u8,
    }

    #[derive(Clone)]
    pub struct EndpointDescriptor {
        pub address: u8,
        pub transfer_type: EndpointType,
        pub max_packet_size: u16,
    }

    pub struct InterfaceDescriptor {
        pub alternate_setting: u8,
        pub endpoints: Vec<EndpointDescriptor>,
    }

    pub struct InterfaceDescriptors {
        pub interface_number: u8,
        pub alt_settings: Vec<InterfaceDescriptor>,
    }

    pub struct ConfigurationDescriptor {
        pub configuration_value: u8,
        pub interfaces: Vec<InterfaceDescriptors>,
    }
}

pub mod endpoint {
    use super::descriptor::{EndpointDescriptor, EndpointType};
    use super::host::ControlSetup;
    use super::transfer::Direction;

    #[derive(Clone, Copy)]
    pub struct EndpointAddress(pub u8);

    impl EndpointAddress {
        pub fn raw(self) -> u8 {
            self.0
        }
    }

    #[derive(Clone, Copy)]
    pub struct EndpointInfo {
        pub address: EndpointAddress,
        pub transfer_type: EndpointType,
        pub max_packet_size: u16,
    }

    impl EndpointInfo {
        pub fn control() -> Self {
            Self { address: EndpointAddress(0), transfer_type: EndpointType::Control, max_packet_size: 64 }
        }
    }

    impl From<&EndpointDescriptor> for EndpointInfo {
        fn from(descriptor: &EndpointDescriptor) -> Self {
            Self {
                address: EndpointAddress(descriptor.address),
                transfer_type: descriptor.transfer_type,
                max_packet_size: descriptor.max_packet_size,
            }
        }
    }

    #[derive(Clone, Copy, Debug, PartialEq, Eq)]
    pub struct RequestId(u64);

    impl RequestId {
        pub const fn new(id: u64) -> Self {
            Self(id)
        }

        pub const fn raw(self) -> u64 {
            self.0
        }
    }

    /// The address that the device sees stands for the pointer.
    #[derive(Clone, Copy)]
    pub struct TransferBuffer {
        pub address: u64,
        pub len: usize,
    }

    #[derive(Clone)]
    pub enum TransferRequest {
        Control { setup: ControlSetup, direction: Direction, buffer: Option<TransferBuffer> },
        Bulk { direction: Direction, buffer: Option<TransferBuffer> },
        Interrupt { direction: Direction, buffer: Option<TransferBuffer> },
        Isochronous { direction: Direction, buffer: Option<TransferBuffer>, packet_lengths: Vec<usize> },
    }

    #[derive(Clone)]
    pub enum TransferKind {
        Control,
        Bulk,
        Interrupt,
        Isochronous { packet_lengths: Vec<usize> },
    }

    #[derive(Clone, Copy)]
    pub enum TransferStatus {
        Completed,
    }

    pub struct IsoPacketResult {
        pub requested_length: usize,
        pub actual_length: usize,
        pub status: TransferStatus,
    }

    pub struct TransferCompletion {
        pub request_id: RequestId,
        pub status: TransferStatus,
        pub actual_length: usize,
        pub iso_packets: Vec<IsoPacketResult>,
    }
}

pub mod err {
    use std::fmt;

    #[derive(Debug)]
    pub enum TransferError {
        InvalidEndpoint,
        QueueFull,
        NotSupported,
        Timeout,
        Cancelled,
        EndpointRevoked,
        Disconnected,
        Other(anyhow::Error),
    }

    #[derive(Debug)]
    pub enum USBError {
        Timeout,
        NoMemory,
        SlotLimitReached,
        NotSupported,
        NotFound,
        InvalidParameter,
        InterfaceBroken,
        TransferError(TransferError),
    }

    impl fmt::Display for USBError {
        fn fmt(&self, f: &mut fmt::Formatter<'_>) -> fmt::Result {
            write!(f, "{self:?}")
        }
    }

    impl From<TransferError> for USBError {
        fn from(error: TransferError) -> Self {
            Self::TransferError(error)
        }
    }
}

pub mod host {
    use super::transfer::{Recipient, Request, RequestType};

    #[derive(Clone)]
    pub struct ControlSetup {
        pub request_type: RequestType,
        pub recipient: Recipient,
        pub request: Request,
        pub value: u16,
        pub index: u16,
    }

    pub mod hub {
        #[derive(Clone, Copy, Debug, PartialEq, Eq)]
        pub enum Speed {
            Low,
            Full,
            High,
        }
    }
}

pub mod transfer {
    #[derive(Clone, Copy, Debug, PartialEq, Eq)]
    pub enum Direction {
        Out,
        In,
    }

    #[derive(Clone, Copy)]
    pub enum RequestType {
        Standard,
        Class,
        Vendor,
        Reserved,
    }

    /// USB 9.3 names four; the other values of the five bits are `Reserved` here, so that every byte can be given.
    #[derive(Clone, Copy)]
    pub enum Recipient {
        Device,
        Interface,
        Endpoint,
        Other,
        Reserved(u8),
    }

    /// The requests that 000 names, and every other byte.
    #[derive(Clone, Copy)]
    pub enum Request {
        SetAddress,
        GetDescriptor,
        SetInterface,
        Other(u8),
    }

    impl From<Request> for u8 {
        fn from(request: Request) -> u8 {
            match request {
                Request::SetAddress => 5,
                Request::GetDescriptor => 6,
                Request::SetInterface => 11,
                Request::Other(byte) => byte,
            }
        }
    }

    pub struct BmRequestType(u8);

    impl BmRequestType {
        /// USB 9.3.1: bit 7 the direction, bits 6 and 5 the type, the rest the recipient.
        pub fn new(direction: Direction, kind: RequestType, recipient: Recipient) -> Self {
            let recipient = match recipient {
                Recipient::Device => 0,
                Recipient::Interface => 1,
                Recipient::Endpoint => 2,
                Recipient::Other => 3,
                Recipient::Reserved(value) => value,
            };
            Self((direction as u8) << 7 | (kind as u8) << 5 | recipient)
        }
    }

    impl From<BmRequestType> for u8 {
        fn from(value: BmRequestType) -> u8 {
            value.0
        }
    }
}
