//! The C functions, as `frames.h` declares them.

pub const OK: u8 = 0;
pub const NO_ROOM: u8 = 1;
pub const EMPTY: u8 = 3;

pub const MORE: u8 = 0;
pub const MESSAGE: u8 = 1;
pub const DAMAGED: u8 = 2;
pub const TOO_LONG: u8 = 3;

#[repr(C)]
pub struct Written {
    pub length: usize,
    pub status: u8,
}

#[repr(C)]
pub struct Read {
    pub used: usize,
    pub length: usize,
    pub status: u8,
}

#[repr(C)]
#[derive(Clone, Debug)]
pub struct Receiver {
    count: usize,
    past: u8,
    sentinel: u8,
}

#[repr(C)]
#[derive(Clone, Copy)]
pub struct Event {
    pub used: usize,
    pub stretch: usize,
    pub start: usize,
    pub length: usize,
    pub kind: u8,
}

#[repr(C)]
#[derive(Clone, Debug)]
pub struct Sender {
    clean: u8,
    sentinel: u8,
}

extern "C" {
    pub fn frames_c_most_encoded_length(length: usize) -> usize;
    pub fn frames_c_encoded_length(source: *const u8, length: usize) -> usize;
    pub fn frames_c_encode_with_sentinel(
        source: *const u8,
        length: usize,
        dest: *mut u8,
        room: usize,
        sentinel: u8,
    ) -> Written;
    pub fn frames_c_decode(source: *const u8, length: usize, dest: *mut u8, room: usize) -> Read;
    pub fn frames_c_decode_with_sentinel(
        source: *const u8,
        length: usize,
        dest: *mut u8,
        room: usize,
        sentinel: u8,
    ) -> Written;
    pub fn frames_c_decode_in_place(buffer: *mut u8, length: usize, sentinel: u8) -> Read;
    pub fn frames_c_receiver(sentinel: u8) -> Receiver;
    pub fn frames_c_push(
        receiver: *mut Receiver,
        buffer: *mut u8,
        room: usize,
        bytes: *const u8,
        length: usize,
    ) -> Event;
    pub fn frames_c_push_plain(
        receiver: *mut Receiver,
        buffer: *mut u8,
        room: usize,
        bytes: *const u8,
        length: usize,
    ) -> Event;
    pub fn frames_c_push_byte(
        receiver: *mut Receiver,
        buffer: *mut u8,
        room: usize,
        byte: u8,
        event: *mut Event,
    ) -> u8;
    pub fn frames_c_push_byte_plain(
        receiver: *mut Receiver,
        buffer: *mut u8,
        room: usize,
        byte: u8,
        event: *mut Event,
    ) -> u8;
    pub fn frames_c_finish(receiver: *mut Receiver) -> bool;
    pub fn frames_c_begun(receiver: *const Receiver) -> usize;
    pub fn frames_c_sender(sentinel: u8) -> Sender;
    pub fn frames_c_send(
        sender: *mut Sender,
        message: *const u8,
        length: usize,
        dest: *mut u8,
        room: usize,
    ) -> Written;
    pub fn frames_c_send_plain(
        sender: *mut Sender,
        message: *const u8,
        length: usize,
        dest: *mut u8,
        room: usize,
    ) -> Written;
    pub fn frames_c_sent(sender: *mut Sender);
    pub fn frames_c_crc32(bytes: *const u8, length: usize) -> u32;
    pub fn frames_c_seal(buffer: *mut u8, room: usize, length: usize) -> Written;
    pub fn frames_c_unseal(message: *const u8, length: usize) -> Written;
}
