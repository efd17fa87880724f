//! The peers compared with each other: messages of many lengths and kinds, broken frames, streams in chunks, records, sums.
use crate::data::{self, message, Numbers, Record, KINDS};
use crate::frames::{bytes, runs, vectors, wide, windows};
use crate::peers::{framed, records, streams, sums, tight};

type Encode = fn(&[u8], &mut [u8]) -> usize;
type Decode = fn(&[u8], &mut [u8]) -> Option<usize>;
type InPlace = fn(&mut [u8]) -> Option<usize>;

const ENCODE: [Encode; 3] = [runs::encode, wide::encode, vectors::encode];
const DECODE: [Decode; 3] = [runs::decode, windows::decode, vectors::decode];
const IN_PLACE: [InPlace; 3] = [runs::decode_in_place, windows::decode_in_place, vectors::decode_in_place];

/// Space for any frame of so many bytes.
fn room(len: usize) -> usize {
    len + len.div_ceil(254).max(1)
}

/// A message whose zeros are one in so many bytes, or none.
fn with_zeros(numbers: &mut Numbers, len: usize, one_in: u64) -> Vec<u8> {
    let mut byte = || if one_in > 0 && numbers.below(one_in) == 0 { 0 } else { numbers.below(255) as u8 + 1 };
    (0..len).map(|_| byte()).collect()
}

/// A message's frame by each peer, its length, and the message again; returns how many results agree.
fn whole(source: &[u8]) -> u64 {
    let mut frame = vec![0; room(source.len()) + 1];
    let len = bytes::encode(source, &mut frame);
    for encode in ENCODE {
        let mut dest = vec![0xAA; room(source.len())];
        assert_eq!(encode(source, &mut dest), len);
        assert!(dest[..len] == frame[..len]);
    }
    for length in [bytes::encoded_length, runs::encoded_length, vectors::encoded_length] {
        assert_eq!(length(source), len);
    }
    if source.len() <= 254 {
        for in_place in [bytes::encode_in_place, runs::encode_in_place, vectors::encode_in_place] {
            let mut buf = vec![0];
            buf.extend_from_slice(source);
            assert_eq!(in_place(&mut buf, source.len()), len);
            assert!(buf == frame[..len]);
        }
    }
    frame.truncate(len);
    frame.push(0);
    frame.extend_from_slice(&[7, 0, 9]);
    9 + decoded(&frame)
}

/// What is decoded of bytes by each peer, if they are a frame or not; in place what comes after the first zero stays.
fn decoded(source: &[u8]) -> u64 {
    let mut dest = vec![0; source.len()];
    let want = bytes::decode(source, &mut dest);
    for decode in DECODE {
        let mut other = vec![0xAA; source.len()];
        assert_eq!(decode(source, &mut other), want);
        assert!(want.is_none_or(|len| other[..len] == dest[..len]));
    }
    let mut dest = source.to_vec();
    let want = bytes::decode_in_place(&mut dest);
    let end = bytes::before_zero(source);
    for decode in IN_PLACE {
        let mut other = source.to_vec();
        assert_eq!(decode(&mut other), want);
        assert!(want.is_none_or(|len| other[..len] == dest[..len]));
        assert!(other[end..] == source[end..]);
    }
    assert_eq!([runs::before_zero(source), vectors::before_zero(source)], [end, end]);
    8
}

const CHUNKS: [usize; 17] = [1, 2, 3, 4, 8, 16, 31, 32, 33, 63, 64, 65, 100, 254, 1024, 4096, 100_000];

/// The same stream with some bytes changed, none of them a zero that ends a frame.
fn broken(numbers: &mut Numbers, stream: &[u8]) -> Vec<u8> {
    let mut stream = stream.to_vec();
    for _ in 0..60 {
        let at = numbers.below(stream.len() as u64) as usize;
        if stream[at] != 0 {
            stream[at] = numbers.below(256) as u8;
        }
    }
    stream
}

/// Streams of records, sound and broken, in chunks.
fn in_chunks(numbers: &mut Numbers) -> u64 {
    let sound = data::stream(40_000);
    let mut agree = 0;
    for stream in [broken(numbers, &sound), sound] {
        for piece in CHUNKS {
            let pairs: [[fn(&[u8], usize) -> _; 2]; 5] = [
                [streams::messages_by_runs, streams::messages_by_vectors],
                [streams::records_by_runs, streams::records_by_vectors],
                [streams::lent_records_by_runs, streams::lent_records_by_vectors],
                [streams::records_by_reads, streams::read_by_vectors],
                [streams::records_listed, streams::listed_by_vectors],
            ];
            for [one, other] in pairs {
                assert_eq!(one(&stream, piece), other(&stream, piece), "chunks of {piece}");
                agree += 1;
            }
        }
        assert_eq!(streams::records_in_place(&mut stream.clone()), streams::in_place_by_vectors(&mut stream.clone()));
        agree += 1;
    }
    agree
}

/// Streams of messages of up to 505 bytes, so that blocks are full too.
fn long_in_chunks(numbers: &mut Numbers) -> u64 {
    let mut sound = Vec::new();
    for which in 0..200 {
        let len = [numbers.below(506), 254, 253, 255, 508 - 3][which % 5] as usize;
        let source = with_zeros(numbers, len, [0, 300, 1, 10][which / 5 % 4]);
        let start = sound.len();
        sound.resize(start + room(len) + 1, 0);
        let end = start + bytes::encode(&source, &mut sound[start..]);
        sound.truncate(end + 1);
    }
    let changed = broken(numbers, &sound);
    let mut agree = 0;
    for piece in CHUNKS {
        let [by_bytes, by_runs, by_vectors] =
            [streams::messages_by_bytes, streams::messages_by_runs, streams::messages_by_vectors].map(|take| take(&sound, piece));
        assert_eq!((by_bytes.values, [by_bytes, by_bytes]), (200, [by_runs, by_vectors]), "chunks of {piece}");
        assert_eq!(streams::messages_by_runs(&changed, piece), streams::messages_by_vectors(&changed, piece), "chunks of {piece}");
        agree += 3;
    }
    agree
}

/// Records written, read, also cut short and with a byte changed, and in frames with and without a sum.
fn of_records(numbers: &mut Numbers) -> u64 {
    let list_len = numbers.below(60);
    let list = data::list(numbers, list_len);
    let shift = numbers.below(60);
    let text = "äöü twenty letters here!".get(..numbers.below(20) as usize).unwrap_or("");
    let perhaps = (numbers.below(2) == 0).then_some(numbers.next() as u16);
    let record = Record { number: numbers.next() as u32, big: numbers.next() >> shift, text, perhaps, list: &list };
    let mut encoded = [0; 256];
    let len = records::write(&record, &mut encoded).expect("a record has space");
    for space in [256, len + 1, len] {
        let mut other = [0; 256];
        assert_eq!(tight::write(&record, &mut other[..space]), Some(len));
        assert!(other[..len] == encoded[..len]);
    }
    assert_eq!(tight::write(&record, &mut [0; 256][..len - 1]), None);
    let mut changed = encoded;
    changed[numbers.below(len as u64) as usize] ^= 1 << numbers.below(8);
    for bytes in [&encoded, &changed].into_iter().flat_map(|all| [len, len - 1, len / 2].map(|n| &all[..n])) {
        assert_eq!(records::read(bytes), tight::read(bytes));
        assert_eq!(records::read_kept(bytes), tight::read_kept(bytes));
    }
    let [mut frame, mut other] = [[0; 300]; 2];
    let pairs: [[fn(&Record<'_>, &mut [u8]) -> Option<usize>; 2]; 2] =
        [[framed::write, framed::by_vectors::write], [sums::write_by_bytes, sums::write_by_products]];
    let reads: [[fn(&mut [u8]) -> Option<_>; 2]; 2] =
        [[framed::read, framed::by_vectors::read], [sums::read_by_bytes, sums::read_by_products]];
    for ([one, two], [read, again]) in pairs.into_iter().zip(reads) {
        let len = one(&record, &mut frame).expect("a record has space");
        assert_eq!((two(&record, &mut other), &other[..len]), (Some(len), &frame[..len]));
        frame[numbers.below(2 * len as u64) as usize % 300] ^= 4;
        other[..len].copy_from_slice(&frame[..len]);
        assert_eq!(read(&mut frame[..len]), again(&mut other[..len]));
    }
    20
}

fn of_sums() -> u64 {
    assert_eq!(sums::by_bytes(b"123456789"), 0xCBF4_3926);
    let bytes = message("random", 4000);
    for len in 0..bytes.len() {
        let want = sums::by_bytes(&bytes[..len]);
        assert_eq!([sums::by_eight(&bytes[..len]), sums::by_products(&bytes[..len])], [want, want]);
    }
    2 * bytes.len() as u64
}

/// Compares all peers, stops at a wrong one, and returns how many results agree.
pub fn all() -> u64 {
    let numbers = &mut Numbers(27);
    let mut agree = of_sums();
    for len in (0..1200).chain([4096, 65_536]) {
        for one_in in [0, 1, 2, 3, 10, 60, 255, 300] {
            let source = with_zeros(numbers, len, one_in);
            agree += whole(&source) + decoded(&source);
        }
    }
    for kind in KINDS {
        agree += whole(&message(kind, 64 << 10));
    }
    for _ in 0..20 {
        agree += in_chunks(numbers) + long_in_chunks(numbers);
    }
    for _ in 0..2000 {
        agree += of_records(numbers);
    }
    agree
}
