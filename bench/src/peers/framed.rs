//! Records in frames of their own.
use super::{records, tight};
use crate::calls::Parts;
use crate::data::Record;
use crate::frames::{runs, vectors, windows};

/// The record's frame, which is made where its message is spelled.
pub fn frame(record: &Record<'_>, room: &mut [u8]) -> Option<usize> {
    let len = records::write(record, room.get_mut(1..)?)?;
    if len <= 254 {
        return Some(runs::encode_in_place(room, len));
    }
    let message = room[1..=len].to_vec();
    if room.len() < runs::encoded_length(&message) {
        return None;
    }
    Some(runs::encode(&message, room))
}

/// The same and a zero.
pub fn write(record: &Record<'_>, room: &mut [u8]) -> Option<usize> {
    let len = frame(record, room)?;
    *room.get_mut(len)? = 0;
    Some(len + 1)
}

/// The same in an array of its own, with how much of it that is.
pub fn write_array(record: &Record<'_>) -> Option<([u8; 256], usize)> {
    let mut room = [0; 256];
    let len = write(record, &mut room)?;
    Some((room, len))
}

/// The same in a vector.
pub fn write_vec(record: &Record<'_>) -> Option<Vec<u8>> {
    let (room, len) = write_array(record)?;
    Some(room[..len].to_vec())
}

/// The record of a frame that is decoded where it lies.
pub fn read(frame: &mut [u8]) -> Option<Parts> {
    let len = windows::decode_in_place(frame)?;
    records::read(&frame[..len])
}

/// The same by vectors, with space tested once.
pub mod by_vectors {
    use super::{runs, tight, vectors, Parts, Record};

    pub fn frame(record: &Record<'_>, room: &mut [u8]) -> Option<usize> {
        let len = tight::write(record, room.get_mut(1..)?)?;
        if len <= 254 {
            return Some(vectors::encode_in_place(room, len));
        }
        let message = room[1..=len].to_vec();
        if room.len() < vectors::encoded_length(&message) {
            return None;
        }
        Some(runs::encode(&message, room))
    }

    pub fn write(record: &Record<'_>, room: &mut [u8]) -> Option<usize> {
        let len = frame(record, room)?;
        *room.get_mut(len)? = 0;
        Some(len + 1)
    }

    pub fn write_array(record: &Record<'_>) -> Option<([u8; 256], usize)> {
        let mut room = [0; 256];
        let len = write(record, &mut room)?;
        Some((room, len))
    }

    pub fn write_vec(record: &Record<'_>) -> Option<Vec<u8>> {
        let (room, len) = write_array(record)?;
        Some(room[..len].to_vec())
    }

    pub fn read(frame: &mut [u8]) -> Option<Parts> {
        let len = vectors::decode_in_place(frame)?;
        tight::read(&frame[..len])
    }
}
