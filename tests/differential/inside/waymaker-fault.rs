//! What is `pub(crate)` in waymaker-fault, for the comparison: each function makes the one call that it is named after.

use crate::device::Device;
use crate::inject::Injection;
use crate::session::{Run, Session};

pub fn apply_program(device: &mut Device, offset: u32, src: &[u8]) -> bool {
    device.apply_program(offset, src)
}

pub fn apply_erase(device: &mut Device, offset: u32, len: u32) -> bool {
    device.apply_erase(offset, len)
}

pub fn would_set_a_bit(device: &Device, offset: u32, src: &[u8]) -> bool {
    device.would_set_a_bit(offset, src)
}

pub fn postimage_of(device: &Device, offset: u32, src: &[u8]) -> Vec<u8> {
    device.postimage_of(offset, src)
}

pub fn differs_from(device: &Device, offset: u32, expected: &[u8]) -> bool {
    device.differs_from(offset, expected)
}

pub fn erase_would_change(device: &Device, offset: u32, len: u32) -> bool {
    device.erase_would_change(offset, len)
}

pub fn new(device: Device, injection: Option<Injection>) -> Session {
    Session::new(device, injection)
}

pub fn finish(session: Session) -> Run {
    session.finish()
}
