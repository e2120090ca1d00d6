//! The published files in their places of the module tree, and stand-ins for their neighbours.
#![allow(dead_code, unused_imports)]

pub mod ty {
    pub mod ep {
        include!(concat!(env!("OUT_DIR"), "/ep.rs"));
    }

    pub mod transfer {
        include!(concat!(env!("OUT_DIR"), "/transfer.rs"));

        use std::marker::PhantomData;

        use usb_if::endpoint::TransferRequest;
        use usb_if::err::TransferError;

        /// Stand-in for the methods, which are not in the published file.
        impl Transfer {
            pub fn from_request(_: &crate::osal::Kernel, request: TransferRequest) -> Result<Self, TransferError> {
                let (kind, direction, buffer) = match request {
                    TransferRequest::Control { direction, buffer, .. } => (TransferKind::Control, direction, buffer),
                    TransferRequest::Bulk { direction, buffer } => (TransferKind::Bulk, direction, buffer),
                    TransferRequest::Interrupt { direction, buffer } => (TransferKind::Interrupt, direction, buffer),
                    TransferRequest::Isochronous { .. } => return Err(TransferError::NotSupported),
                };
                let mapping =
                    buffer.map(|b| dma_api::StreamingMap { address: b.address, length: b.len, items: PhantomData });
                Ok(Self { kind, direction, mapping, transfer_len: 0, iso_packet_actual_lengths: Vec::new() })
            }

            pub fn buffer_len(&self) -> usize {
                self.mapping.as_ref().map_or(0, |mapping| mapping.length)
            }

            pub fn dma_addr(&self) -> u64 {
                self.mapping.as_ref().map_or(0, |mapping| mapping.address)
            }

            pub fn prepare_for_device(&self) {}

            pub fn complete_for_cpu(&self) {}
        }
    }

    use std::collections::{BTreeMap, VecDeque};
    use std::sync::atomic::{AtomicBool, Ordering};
    use std::sync::{Arc, Mutex};

    use futures::future::BoxFuture;
    use usb_if::descriptor::{ConfigurationDescriptor, DeviceDescriptor};

    use crate::err::Result;
    use ep::EndpointHandle;

    #[derive(Clone, Copy, Debug, PartialEq, Eq)]
    pub enum Event {
        Nothing,
        PortChange { port: u8 },
        TransferActivity { count: usize },
        Stopped,
    }

    pub trait EventHandlerOp: Send + Sync {
        fn acknowledge_irq(&self) -> bool;
        fn drain_event(&self) -> Event;
        fn rearm_irq(&self);
    }

    /// The flag, and readings of it that come before the flag itself.
    #[derive(Clone)]
    pub struct ControllerIrqState {
        flag: Arc<AtomicBool>,
        readings: Arc<Mutex<VecDeque<bool>>>,
    }

    impl ControllerIrqState {
        pub fn new(enabled: bool) -> Self {
            Self { flag: Arc::new(AtomicBool::new(enabled)), readings: Arc::default() }
        }

        pub fn set_enabled(&self, enabled: bool, write: impl FnOnce()) {
            self.flag.store(enabled, Ordering::SeqCst);
            write()
        }

        pub fn is_enabled(&self) -> bool {
            let reading = self.readings.lock().unwrap().pop_front();
            reading.unwrap_or(self.flag.load(Ordering::SeqCst))
        }

        pub fn apply_enabled(&self, write: impl FnOnce(bool)) {
            write(self.flag.load(Ordering::SeqCst))
        }

        /// The next readings of the flag, in place of any left.
        pub fn script(&self, readings: &[bool]) {
            *self.readings.lock().unwrap() = readings.iter().copied().collect();
        }
    }

    pub struct HubParams;

    pub trait DeviceOp: Send {
        fn id(&self) -> usize;
        fn backend_name(&self) -> &str;
        fn descriptor(&self) -> &DeviceDescriptor;
        fn configuration_descriptors(&self) -> &[ConfigurationDescriptor];
        fn ctrl_ep_ref(&self) -> &EndpointHandle;
        fn ctrl_ep_mut(&mut self) -> &mut EndpointHandle;
        fn claim_interface<'a>(
            &'a mut self,
            interface: u8,
            alternate: u8,
        ) -> BoxFuture<'a, Result<BTreeMap<u8, EndpointHandle>>>;
        fn release_interface<'a>(&'a mut self, interface: u8) -> BoxFuture<'a, Result<()>>;
        fn set_configuration<'a>(&'a mut self, value: u8) -> BoxFuture<'a, Result<()>>;
        fn disconnect(&mut self) -> BoxFuture<'_, Result<()>>;
        fn update_hub(&mut self, params: HubParams) -> BoxFuture<'_, Result<()>>;
    }
}

pub mod kmod {
    pub mod hub {
        use futures::future::BoxFuture;
        use usb_if::host::hub::Speed;

        use crate::err::Result;

        pub struct HubInfo {
            pub speed: Speed,
        }

        #[derive(Clone, Debug, PartialEq, Eq)]
        pub struct PortChangeInfo {
            pub root_port_id: u8,
            pub port_id: u8,
            pub port_speed: Speed,
        }

        #[derive(Clone, Debug, PartialEq, Eq)]
        pub enum PortEvent {
            Connected(PortChangeInfo),
            Disconnected { port_id: u8 },
        }

        #[derive(Clone, Copy, Debug, PartialEq, Eq)]
        pub enum PortState {
            Uninit,
            Reseted,
            Probed,
        }

        pub trait HubOp: Send {
            fn init<'a>(&'a mut self, info: HubInfo) -> BoxFuture<'a, Result<HubInfo>>;
            fn changed_ports<'a>(&'a mut self) -> BoxFuture<'a, Result<Vec<PortEvent>>>;
            fn slot_id(&self) -> u8;
        }
    }

    pub mod kcore {
        use futures::future::BoxFuture;

        use super::{hub::HubOp, osal::Kernel};
        use crate::DeviceAddressInfo;
        use crate::backend::ty::{DeviceOp, EventHandlerOp};
        use crate::err::Result;

        pub trait CoreOp {
            fn prepare_controller<'a>(&'a mut self) -> BoxFuture<'a, Result<()>>;
            fn root_hub(&mut self) -> Box<dyn HubOp>;
            fn new_addressed_device<'a>(
                &'a mut self,
                address: DeviceAddressInfo,
            ) -> BoxFuture<'a, Result<Box<dyn DeviceOp>>>;
            fn create_event_handler(&mut self) -> Box<dyn EventHandlerOp>;
            fn enable_irq(&mut self) -> Result<()>;
            fn disable_irq(&mut self) -> Result<()>;
            fn kernel(&self) -> &Kernel;
        }
    }

    pub mod osal {
        use std::time::Duration;

        use dma_api::{CoherentArray, CoherentBox, DeviceDma, DmaError};

        pub trait KernelOp: Sync {
            fn delay(&self, duration: Duration);
        }

        #[derive(Clone)]
        pub struct Kernel(&'static dyn KernelOp);

        impl Kernel {
            pub fn new(_: DeviceDma, kernel: &'static dyn KernelOp) -> Self {
                Self(kernel)
            }

            pub fn delay(&self, duration: Duration) {
                self.0.delay(duration)
            }

            pub fn coherent_box_zero_with_align<T: Copy>(&self, _: usize) -> Result<CoherentBox<T>, DmaError> {
                CoherentBox::zero()
            }

            pub fn coherent_array_zero_with_align<T: Copy>(
                &self,
                count: usize,
                _: usize,
            ) -> Result<CoherentArray<T>, DmaError> {
                CoherentArray::zero(count)
            }
        }

        pub fn narrow_dma_capability(dma: &DeviceDma, _: u64) -> DeviceDma {
            dma.clone()
        }
    }

    /// 000 itself. The modules inside see its private items.
    pub mod ehci {
        include!(concat!(env!("OUT_DIR"), "/ehci.rs"));

        pub mod controller {
            include!("controller.rs");
        }

        pub mod leaves {
            include!("leaves.rs");
        }

        pub mod probes {
            include!("probes.rs");
        }
    }
}
