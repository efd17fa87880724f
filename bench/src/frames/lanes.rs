//! Vectors of one width, and what is done with them: 32 bytes if the program is compiled for AVX2 (`x86-64-v3`), else 16.

#[cfg(all(target_arch = "x86_64", target_feature = "avx2"))]
mod chosen {
    use std::arch::x86_64::*;

    pub type Lanes = __m256i;

    #[inline(always)]
    pub unsafe fn load(from: *const u8) -> Lanes {
        _mm256_loadu_si256(from.cast())
    }

    #[inline(always)]
    pub unsafe fn store(to: *mut u8, lanes: Lanes) {
        _mm256_storeu_si256(to.cast(), lanes);
    }

    #[inline(always)]
    pub unsafe fn all_of(byte: u8) -> Lanes {
        _mm256_set1_epi8(byte as i8)
    }

    #[inline(always)]
    pub unsafe fn least(one: Lanes, other: Lanes) -> Lanes {
        _mm256_min_epu8(one, other)
    }

    /// Bit k is set if byte k is this one.
    #[inline(always)]
    pub unsafe fn marks(lanes: Lanes, byte: u8) -> u64 {
        u64::from(_mm256_movemask_epi8(_mm256_cmpeq_epi8(lanes, all_of(byte))) as u32)
    }
}

#[cfg(all(target_arch = "x86_64", not(target_feature = "avx2")))]
mod chosen {
    use std::arch::x86_64::*;

    pub type Lanes = __m128i;

    #[inline(always)]
    pub unsafe fn load(from: *const u8) -> Lanes {
        _mm_loadu_si128(from.cast())
    }

    #[inline(always)]
    pub unsafe fn store(to: *mut u8, lanes: Lanes) {
        _mm_storeu_si128(to.cast(), lanes);
    }

    #[inline(always)]
    pub unsafe fn all_of(byte: u8) -> Lanes {
        _mm_set1_epi8(byte as i8)
    }

    #[inline(always)]
    pub unsafe fn least(one: Lanes, other: Lanes) -> Lanes {
        _mm_min_epu8(one, other)
    }

    /// Bit k is set if byte k is this one.
    #[inline(always)]
    pub unsafe fn marks(lanes: Lanes, byte: u8) -> u64 {
        u64::from(_mm_movemask_epi8(_mm_cmpeq_epi8(lanes, all_of(byte))) as u32)
    }
}

#[cfg(not(target_arch = "x86_64"))]
mod chosen {
    pub type Lanes = [u8; 16];

    #[inline(always)]
    pub unsafe fn load(from: *const u8) -> Lanes {
        from.cast::<Lanes>().read_unaligned()
    }

    #[inline(always)]
    pub unsafe fn store(to: *mut u8, lanes: Lanes) {
        to.cast::<Lanes>().write_unaligned(lanes);
    }

    #[inline(always)]
    pub unsafe fn all_of(byte: u8) -> Lanes {
        [byte; 16]
    }

    #[inline(always)]
    pub unsafe fn least(one: Lanes, other: Lanes) -> Lanes {
        std::array::from_fn(|i| one[i].min(other[i]))
    }

    #[inline(always)]
    pub unsafe fn marks(lanes: Lanes, byte: u8) -> u64 {
        (0..16).fold(0, |marks, i| marks | u64::from(lanes[i] == byte) << i)
    }
}

use chosen::{all_of, least, load, marks, store, Lanes};

const WIDTH: usize = size_of::<Lanes>();
const COUNT: usize = 64 / WIDTH;

/// 64 bytes.
pub type Line = [Lanes; COUNT];

#[inline(always)]
pub unsafe fn load_64(from: *const u8) -> Line {
    std::array::from_fn(|i| load(from.add(i * WIDTH)))
}

#[inline(always)]
pub unsafe fn store_64(to: *mut u8, line: Line) {
    for (i, lanes) in line.into_iter().enumerate() {
        store(to.add(i * WIDTH), lanes);
    }
}

/// Marks a byte among 64.
#[inline(always)]
pub unsafe fn marks_64(line: Line, byte: u8) -> u64 {
    line.into_iter().enumerate().fold(0, |bits, (i, lanes)| bits | marks(lanes, byte) << (i * WIDTH))
}

/// 64 bytes that are all this one.
#[inline(always)]
pub unsafe fn line_of(byte: u8) -> Line {
    [all_of(byte); COUNT]
}

/// Whether no byte of four lines is zero.
#[inline(always)]
pub unsafe fn are_clear(lines: [Line; 4]) -> bool {
    let mut lowest = lines[0][0];
    for line in lines {
        for lanes in line {
            lowest = least(lowest, lanes);
        }
    }
    marks(lowest, 0) == 0
}

/// Loads as much at both ends of n bytes, which are at most twice that; with `STORE` writes them elsewhere or towards the front; and
/// marks the zeros.
#[inline(always)]
unsafe fn move_ends<T: Copy, const STORE: bool>(from: *const u8, to: *mut u8, n: usize, zeros: impl Fn(T) -> u64) -> u64 {
    let behind = n - size_of::<T>();
    let front = from.cast::<T>().read_unaligned();
    let back = from.add(behind).cast::<T>().read_unaligned();
    if STORE {
        to.cast::<T>().write_unaligned(front);
        to.add(behind).cast::<T>().write_unaligned(back);
    }
    zeros(front) | zeros(back) << behind
}

/// The zeros of 16 bytes, and of eight.
#[cfg(target_arch = "x86_64")]
mod narrow {
    use std::arch::x86_64::*;

    pub type Lanes16 = __m128i;

    #[inline(always)]
    pub unsafe fn zeros_of_16(lanes: Lanes16) -> u64 {
        u64::from(_mm_movemask_epi8(_mm_cmpeq_epi8(lanes, _mm_setzero_si128())) as u32)
    }

    #[inline(always)]
    pub unsafe fn zeros_of_8(number: u64) -> u64 {
        zeros_of_16(_mm_cvtsi64_si128(number as i64)) & 255
    }
}

#[cfg(not(target_arch = "x86_64"))]
mod narrow {
    pub type Lanes16 = [u8; 16];

    #[inline(always)]
    pub unsafe fn zeros_of_16(lanes: Lanes16) -> u64 {
        (0..16).fold(0, |bits, i| bits | u64::from(lanes[i] == 0) << i)
    }

    #[inline(always)]
    pub unsafe fn zeros_of_8(number: u64) -> u64 {
        (0..8).fold(0, |bits, i| bits | u64::from(number >> (8 * i) & 255 == 0) << i)
    }
}

use narrow::{zeros_of_16, zeros_of_8, Lanes16};

/// Marks the zeros of n bytes, at most 64, and with `STORE` moves them towards the front, or elsewhere.
#[inline(always)]
pub unsafe fn move_few<const STORE: bool>(from: *const u8, to: *mut u8, n: usize) -> u64 {
    match n {
        32.. => {
            let zeros = |lanes: [Lanes; 32 / WIDTH]| {
                lanes.into_iter().enumerate().fold(0, |bits, (i, lanes)| bits | marks(lanes, 0) << (i * WIDTH))
            };
            move_ends::<[Lanes; 32 / WIDTH], STORE>(from, to, n, zeros)
        }
        16.. => move_ends::<Lanes16, STORE>(from, to, n, |lanes| zeros_of_16(lanes)),
        8.. => move_ends::<u64, STORE>(from, to, n, |number| zeros_of_8(number)),
        4.. => move_ends::<u32, STORE>(from, to, n, |number| zeros_of_8(u64::from(number)) & 15),
        _ => {
            let mut bits = 0;
            for i in 0..n {
                let byte = *from.add(i);
                if STORE {
                    *to.add(i) = byte;
                }
                bits |= u64::from(byte == 0) << i;
            }
            bits
        }
    }
}

/// Moves n bytes towards the front, or elsewhere.
#[inline(always)]
pub unsafe fn move_all(from: *const u8, to: *mut u8, n: usize) {
    let mut at = 0;
    while n - at >= 64 {
        store_64(to.add(at), load_64(from.add(at)));
        at += 64;
    }
    move_few::<true>(from.add(at), to.add(at), n - at);
}

/// How many of n bytes come before the first zero.
#[inline(always)]
pub unsafe fn before_zero(from: *const u8, n: usize) -> usize {
    let mut at = 0;
    while n - at >= 256 {
        if !are_clear([0, 64, 128, 192].map(|k| load_64(from.add(at + k)))) {
            break;
        }
        at += 256;
    }
    while n - at >= 64 {
        let bits = marks_64(load_64(from.add(at)), 0);
        if bits != 0 {
            return at + bits.trailing_zeros() as usize;
        }
        at += 64;
    }
    let bits = move_few::<false>(from.add(at), std::ptr::null_mut(), n - at);
    if bits == 0 { n } else { at + bits.trailing_zeros() as usize }
}

/// Where the first of two bytes is. `plain.rs` searches by this.
#[allow(dead_code)]
#[inline]
pub fn first_of_two(bytes: &[u8], one: u8, other: u8) -> Option<usize> {
    let (n, from) = (bytes.len(), bytes.as_ptr());
    let found = |at: usize, bits: u64| (bits != 0).then(|| at + bits.trailing_zeros() as usize);
    let mut at = 0;
    // SAFETY: each load is of bytes of the slice.
    unsafe {
        while n - at >= 64 {
            let line = load_64(from.add(at));
            if let Some(at) = found(at, marks_64(line, one) | marks_64(line, other)) {
                return Some(at);
            }
            at += 64;
        }
        while n - at >= WIDTH {
            let lanes = load(from.add(at));
            if let Some(at) = found(at, marks(lanes, one) | marks(lanes, other)) {
                return Some(at);
            }
            at += WIDTH;
        }
        if n >= WIDTH {
            // the last vector begins among bytes that were searched
            let lanes = load(from.add(n - WIDTH));
            return found(n - WIDTH, marks(lanes, one) | marks(lanes, other));
        }
    }
    bytes.iter().position(|&byte| byte == one || byte == other)
}
