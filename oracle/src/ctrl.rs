// Stand-in for src/backend/ty/ep/ctrl.rs, which is not among the published files. Only the device layer calls these, and
// it is compiled and not run.
use usb_if::descriptor::{ConfigurationDescriptor, DescriptorType, DeviceDescriptor};
use usb_if::err::TransferError;
use usb_if::host::ControlSetup;

use super::EndpointHandle;

type Answer<T> = Result<T, TransferError>;

fn not_run<T>() -> Answer<T> {
    unreachable!("the device layer is not run")
}

impl EndpointHandle {
    pub async fn control_out(&self, _: ControlSetup, _: &[u8]) -> Answer<()> {
        not_run()
    }

    pub async fn get_descriptor(&self, _: DescriptorType, _: u8, _: u16, _: &mut [u8]) -> Answer<()> {
        not_run()
    }

    pub async fn get_device_descriptor(&self) -> Answer<DeviceDescriptor> {
        not_run()
    }

    pub async fn get_configuration(&self) -> Answer<u8> {
        not_run()
    }

    pub async fn get_configuration_descriptor(&self, _: u8) -> Answer<ConfigurationDescriptor> {
        not_run()
    }

    pub async fn set_configuration(&self, _: u8) -> Answer<()> {
        not_run()
    }
}
