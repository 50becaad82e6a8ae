//! The calls on the stored form, linked: `linked` has the others, and what makes each call safe.

use super::{Changed, Device, Written};

unsafe extern "C" {
    fn pj_store(device: Device, out: *mut u8, out_length: usize) -> Written;
    fn pj_load(bytes: *const u8, length: usize) -> Changed;
}

pub fn store(device: Device, out: &mut [u8]) -> Written {
    unsafe { pj_store(device, out.as_mut_ptr(), out.len()) }
}

pub fn load(bytes: &[u8]) -> Changed {
    unsafe { pj_load(bytes.as_ptr(), bytes.len()) }
}
