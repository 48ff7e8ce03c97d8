//! `hingetulip.h`, by hand: its structs have no gaps.
use core::ffi::c_void;

pub const OK: u32 = 0;
pub const ROOM: u32 = 7;
pub const LINE: u32 = 8;
pub const NEW_FLOW: u32 = 19;
pub const BAD_ROW: u32 = 22;
pub const BAD_RECORD: u32 = 24;
pub const NEVER: u64 = u64::MAX;
pub const REASON_ROOM: usize = 128;

#[repr(C)]
pub struct Handle {
    pub at: *mut c_void,
    pub open: bool,
}

#[repr(C)]
pub struct Audit {
    pub at: *mut c_void,
    pub open: bool,
}

#[repr(C)]
#[derive(Clone, Copy, Default)]
pub struct Fault {
    pub word: u64,
    pub kind: u32,
    pub reserved: u32,
}

#[repr(C)]
#[derive(Clone, Copy, Default)]
pub struct Packet {
    pub moment: u64,
    pub src: u32,
    pub dst: u32,
    pub word: u32,
    pub sport: u16,
    pub dport: u16,
    pub length: u16,
    pub number: u16,
    pub kind: u8,
    pub proto: u8,
    pub reserved: u16,
}

#[repr(C)]
#[derive(Clone, Copy, Default)]
pub struct Fate {
    pub at: u64,
    pub flow: u64,
    pub packet: u64,
    pub outcome: u32,
    pub reserved: u32,
}

#[repr(C)]
#[derive(Clone, Copy, Default)]
pub struct Delivery {
    pub due: u64,
    pub packet: u64,
    pub flow: u64,
    pub start: u64,
    pub reserved: u64,
}

#[repr(C)]
#[derive(Clone, Copy, Default)]
pub struct Flow {
    pub flow: u64,
    pub queued: u64,
    pub bytes: u64,
    pub lost: u64,
    pub full: u64,
    pub started: u64,
    pub discarded: u64,
    pub src: u32,
    pub dst: u32,
    pub sport: u16,
    pub dport: u16,
    pub number: u16,
    pub pipe: u16,
    pub kind: u8,
    pub proto: u8,
    pub reserved: u16,
    pub reserved2: u32,
}

#[repr(C)]
#[derive(Clone, Copy, Default)]
pub struct Entry {
    pub packet: Packet,
    pub fate: Fate,
    pub caller: u64,
    pub line: u64,
    pub size: u64,
    pub first: u64,
    pub count: u64,
    pub status: u32,
    pub call: u8,
    pub reply: u8,
    pub reserved: u16,
}

#[repr(C)]
#[derive(Clone, Copy, Default)]
pub struct History {
    pub entries: u64,
    pub bytes: u64,
    pub deliveries: u64,
    pub flows: u64,
    pub rule: u32,
    pub reserved: u32,
}

#[repr(C)]
#[derive(Clone, Copy, Default)]
pub struct Verdict {
    pub entries: u64,
    pub first: u64,
    pub finding: u32,
    pub reserved: u32,
}

extern "C" {
    pub fn dn_version() -> u32;
    pub fn dn_open_with_key(handle: *mut Handle, rule: u32, high: u64, low: u64) -> u32;
    pub fn dn_close(handle: *mut Handle) -> u32;
    pub fn dn_configure(handle: *mut Handle, line: *const u8, length: usize, fault: *mut Fault) -> u32;
    pub fn dn_submit(handle: *mut Handle, packet: *const Packet, fate: *mut Fate) -> u32;
    pub fn dn_submit_many(handle: *mut Handle, packets: *const Packet, count: usize, fates: *mut Fate, room: usize, done: *mut u64) -> u32;
    pub fn dn_reserve(handle: *mut Handle, packet: *const Packet) -> u32;
    pub fn dn_advance(handle: *mut Handle, moment: u64, at: *mut u64) -> u32;
    pub fn dn_collect(handle: *mut Handle, moment: u64, list: *mut Delivery, room: usize, count: *mut u64) -> u32;
    pub fn dn_show(handle: *mut Handle, list: *mut Flow, room: usize, count: *mut u64) -> u32;
    pub fn dn_wake(handle: *mut Handle, moment: *mut u64) -> u32;
    pub fn dn_reason(status: u32, fault: *const Fault, text: *mut u8, room: usize, length: *mut u64) -> u32;
    pub fn dn_configure_text(caller: u64, line: *const u8, size: usize, status: u32, fault: *mut Fault, text: *mut u8, room: usize, length: *mut u64) -> u32;
    pub fn dn_submit_text(caller: u64, packet: *const Packet, fate: *const Fate, text: *mut u8, room: usize, length: *mut u64) -> u32;
    pub fn dn_advance_text(caller: u64, moment: u64, at: u64, text: *mut u8, room: usize, length: *mut u64) -> u32;
    pub fn dn_collect_text(caller: u64, moment: u64, at: u64, list: *const Delivery, count: usize, text: *mut u8, room: usize, length: *mut u64) -> u32;
    pub fn dn_read_packets(text: *const u8, length: usize, packets: *mut Packet, room: usize, count: *mut u64, used: *mut u64, row: *mut u64, field: *mut u64) -> u32;
    pub fn dn_read_history(text: *const u8, length: usize, entries: *mut Entry, entry_room: usize, lines: *mut u8, line_room: usize, deliveries: *mut Delivery, delivery_room: usize, flows: *mut Flow, flow_room: usize, history: *mut History, record: *mut u64) -> u32;
    pub fn dn_audit_open_with_key(audit: *mut Audit, limit: usize, high: u64, low: u64) -> u32;
    pub fn dn_audit_feed(audit: *mut Audit, text: *const u8, length: usize) -> u32;
    pub fn dn_audit_finish(audit: *mut Audit, verdict: *mut Verdict, record: *mut u64) -> u32;
    pub fn dn_audit_close(audit: *mut Audit) -> u32;
}

#[cfg(test)]
mod tests {
    use super::*;
    use core::mem::size_of;

    /// The sums of the fields' bytes in hingetulip.h.
    #[test]
    fn sizes_are_those_of_the_header() {
        let sizes = [size_of::<Handle>(), size_of::<Fault>(), size_of::<Packet>(), size_of::<Fate>(), size_of::<Delivery>(), size_of::<Flow>()];
        assert_eq!(sizes, [16, 16, 32, 32, 40, 80]);
        assert_eq!([size_of::<Audit>(), size_of::<Verdict>(), size_of::<Entry>(), size_of::<History>()], [16, 24, 112, 40]);
    }
}
