//! CRC-32 by tables, a byte a step and eight bytes a step, and by products without carries; and records with their sum after them in
//! frames.
use super::records::{self, take};
use super::tight;
use crate::calls::Parts;
use crate::data::Record;
use crate::frames::{runs, vectors, windows};

/// What each byte adds, so many zeros in front of the last one.
const fn tables() -> [[u32; 256]; 8] {
    let mut tables = [[0u32; 256]; 8];
    let mut i = 0;
    while i < 256 {
        let mut sum = i as u32;
        let mut bit = 0;
        while bit < 8 {
            sum = if sum & 1 == 1 { (sum >> 1) ^ 0xEDB8_8320 } else { sum >> 1 };
            bit += 1;
        }
        tables[0][i] = sum;
        i += 1;
    }
    let mut table = 1;
    while table < 8 {
        let mut i = 0;
        while i < 256 {
            let before = tables[table - 1][i];
            tables[table][i] = (before >> 8) ^ tables[0][(before & 255) as usize];
            i += 1;
        }
        table += 1;
    }
    tables
}

static TABLES: [[u32; 256]; 8] = tables();

/// A byte a step.
#[inline]
pub fn by_bytes(bytes: &[u8]) -> u32 {
    let mut sum = u32::MAX;
    for byte in bytes {
        sum = (sum >> 8) ^ TABLES[0][((sum ^ u32::from(*byte)) & 255) as usize];
    }
    !sum
}

/// Eight bytes a step.
#[inline]
pub fn by_eight(bytes: &[u8]) -> u32 {
    let mut sum = u32::MAX;
    let chunks = bytes.chunks_exact(8);
    let rest = chunks.remainder();
    for chunk in chunks {
        let chunk: [u8; 8] = chunk.try_into().expect("eight bytes");
        let word = u64::from_le_bytes(chunk) ^ u64::from(sum);
        sum = 0;
        for (i, byte) in word.to_le_bytes().into_iter().enumerate() {
            sum ^= TABLES[7 - i][usize::from(byte)];
        }
    }
    for byte in rest {
        sum = (sum >> 8) ^ TABLES[0][((sum ^ u32::from(*byte)) & 255) as usize];
    }
    !sum
}

/// By products without carries (`pclmulqdq`), 64 bytes a step; where the processor has none, or for less than that, eight bytes a step.
#[inline]
pub fn by_products(bytes: &[u8]) -> u32 {
    #[cfg(target_arch = "x86_64")]
    if bytes.len() >= 64 && std::arch::is_x86_feature_detected!("pclmulqdq") && std::arch::is_x86_feature_detected!("sse4.1") {
        // SAFETY: the processor has the products, and what is loaded is among the bytes.
        return unsafe { products::sum(bytes) };
    }
    by_eight(bytes)
}

/// What is summed so far is a polynomial of 128 bits, reflected, in each of four vectors: a vector is moved by so many bits if its
/// halves are multiplied by the remainders of those powers, which are the constants.
#[cfg(target_arch = "x86_64")]
mod products {
    use std::arch::x86_64::*;

    const BY_512: (i64, i64) = (0x1_5444_2bd4, 0x1_c6e4_1596);
    const BY_128: (i64, i64) = (0x1_7519_97d0, 0x0_ccaa_009e);
    const BY_64: i64 = 0x1_63cd_6124;
    /// The polynomial, and the quotient that finds the remainder.
    const LAST: (i64, i64) = (0x1_db71_0641, 0x1_f701_1641);

    #[inline]
    #[target_feature(enable = "pclmulqdq,sse4.1")]
    unsafe fn moved(lanes: __m128i, by: __m128i, next: __m128i) -> __m128i {
        let (low, high) = (_mm_clmulepi64_si128(lanes, by, 0x00), _mm_clmulepi64_si128(lanes, by, 0x11));
        _mm_xor_si128(_mm_xor_si128(low, high), next)
    }

    #[target_feature(enable = "pclmulqdq,sse4.1")]
    pub unsafe fn sum(bytes: &[u8]) -> u32 {
        let load = |at: usize| _mm_loadu_si128(bytes.as_ptr().add(at).cast());
        let mut four = [_mm_xor_si128(load(0), _mm_cvtsi32_si128(-1)), load(16), load(32), load(48)];
        let by = _mm_set_epi64x(BY_512.1, BY_512.0);
        let mut at = 64;
        while bytes.len() - at >= 64 {
            for (i, lanes) in four.iter_mut().enumerate() {
                *lanes = moved(*lanes, by, load(at + 16 * i));
            }
            at += 64;
        }
        let by = _mm_set_epi64x(BY_128.1, BY_128.0);
        let mut one = moved(moved(moved(four[0], by, four[1]), by, four[2]), by, four[3]);
        while bytes.len() - at >= 16 {
            one = moved(one, by, load(at));
            at += 16;
        }
        let mut sum = remainder(one, by);
        for byte in &bytes[at..] {
            sum = (sum >> 8) ^ super::TABLES[0][((sum ^ u32::from(*byte)) & 255) as usize];
        }
        !sum
    }

    /// The remainder of 128 bits.
    #[inline]
    #[target_feature(enable = "pclmulqdq,sse4.1")]
    unsafe fn remainder(lanes: __m128i, by: __m128i) -> u32 {
        let low = _mm_setr_epi32(-1, 0, -1, 0);
        let mut one = _mm_xor_si128(_mm_srli_si128(lanes, 8), _mm_clmulepi64_si128(lanes, by, 0x10));
        let by = _mm_set_epi64x(0, BY_64);
        one = _mm_xor_si128(_mm_srli_si128(one, 4), _mm_clmulepi64_si128(_mm_and_si128(one, low), by, 0x00));
        let by = _mm_set_epi64x(LAST.1, LAST.0);
        let quotient = _mm_and_si128(_mm_clmulepi64_si128(_mm_and_si128(one, low), by, 0x10), low);
        one = _mm_xor_si128(one, _mm_clmulepi64_si128(quotient, by, 0x00));
        _mm_extract_epi32(one, 1) as u32
    }
}

type Sum = fn(&[u8]) -> u32;

/// The frame of a record with its sum behind it, and a zero.
#[inline]
fn write(record: &Record<'_>, room: &mut [u8], sum: Sum) -> Option<usize> {
    let mut message = [0; 256];
    let len = records::write(record, &mut message)?;
    let sum = sum(&message[..len]);
    message.get_mut(len..len + 4)?.copy_from_slice(&sum.to_le_bytes());
    let message = &message[..len + 4];
    if room.len() < message.len() + message.len().div_ceil(254) + 1 {
        return None;
    }
    let end = runs::encode(message, room);
    room[end] = 0;
    Some(end + 1)
}

pub fn write_by_bytes(record: &Record<'_>, room: &mut [u8]) -> Option<usize> {
    write(record, room, by_bytes)
}

pub fn write_by_eight(record: &Record<'_>, room: &mut [u8]) -> Option<usize> {
    write(record, room, by_eight)
}

/// Encoded where the frame is made, with space tested once, and by products.
pub fn write_by_products(record: &Record<'_>, room: &mut [u8]) -> Option<usize> {
    let len = tight::write(record, room.get_mut(1..)?)?;
    if len + 4 > 254 || len + 6 > room.len() {
        return write(record, room, by_products);
    }
    let sum = by_products(&room[1..=len]);
    room[len + 1..len + 5].copy_from_slice(&sum.to_le_bytes());
    let end = vectors::encode_in_place(room, len + 4);
    room[end] = 0;
    Some(end + 1)
}

/// The record of a frame that is decoded where it lies. Its sum is that of the bytes that came.
#[inline]
fn read(frame: &mut [u8], sum: Sum) -> Option<Parts> {
    let len = windows::decode_in_place(frame)?;
    let message = &frame[..len];
    let (parts, mut rest) = records::read_front(message)?;
    let spelled = message.len() - rest.len();
    let seal = take(&mut rest, 4)?;
    (sum(&message[..spelled]).to_le_bytes() == seal).then_some(parts)
}

pub fn read_by_bytes(frame: &mut [u8]) -> Option<Parts> {
    read(frame, by_bytes)
}

pub fn read_by_eight(frame: &mut [u8]) -> Option<Parts> {
    read(frame, by_eight)
}

pub fn read_by_products(frame: &mut [u8]) -> Option<Parts> {
    let len = vectors::decode_in_place(frame)?;
    let message = &frame[..len];
    let (parts, mut rest) = tight::read_front(message)?;
    let encoded = message.len() - rest.len();
    let seal = take(&mut rest, 4)?;
    (by_products(&message[..encoded]).to_le_bytes() == seal).then_some(parts)
}
