//! `hingetulip_service.h`, by hand.
use crate::raw::{Delivery, Fate, Fault, Flow, Packet};
use core::ffi::c_void;

pub const BUSY: u32 = 15;
pub const NO_ENTRY: u32 = 18;

#[repr(C)]
pub struct Service {
    pub at: *mut c_void,
    pub open: bool,
}

#[repr(C)]
pub struct Caller {
    pub at: *mut c_void,
    pub open: bool,
}

extern "C" {
    pub fn dn_service_open_with_key(service: *mut Service, callers: *mut Caller, count: usize, high: u64, low: u64) -> u32;
    pub fn dn_service_close(service: *mut Service) -> u32;
    pub fn dn_caller_close(caller: *mut Caller) -> u32;
    pub fn dn_caller_configure(caller: *mut Caller, line: *const u8, length: usize, fault: *mut Fault, holder: *mut u64) -> u32;
    pub fn dn_caller_submit(caller: *mut Caller, packet: *const Packet, fate: *mut Fate, holder: *mut u64) -> u32;
    pub fn dn_caller_advance(caller: *mut Caller, moment: u64, at: *mut u64, holder: *mut u64) -> u32;
    pub fn dn_caller_collect(caller: *mut Caller, moment: u64, count: *mut u64, holder: *mut u64) -> u32;
    pub fn dn_caller_show(caller: *mut Caller, count: *mut u64, holder: *mut u64) -> u32;
    pub fn dn_caller_deliveries(caller: *mut Caller, from: usize, list: *mut Delivery, room: usize, count: *mut u64) -> u32;
    pub fn dn_caller_flows(caller: *mut Caller, from: usize, list: *mut Flow, room: usize, count: *mut u64) -> u32;
    pub fn dn_caller_wake(caller: *mut Caller, moment: *mut u64, holder: *mut u64) -> u32;
    pub fn dn_service_take(service: *mut Service, start: *mut u64, count: *mut u64, holder: *mut u64) -> u32;
    pub fn dn_service_texts(service: *mut Service, text: *mut u8, room: usize, length: *mut u64, count: *mut u64) -> u32;
}

#[cfg(test)]
mod tests {
    use super::*;
    use core::mem::size_of;

    /// The sums of the fields' bytes in hingetulip_service.h.
    #[test]
    fn sizes_are_those_of_the_header() {
        assert_eq!([size_of::<Service>(), size_of::<Caller>()], [16, 16]);
    }
}
