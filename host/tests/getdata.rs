//! getdata's payload through the library, beside one built here from the request's own words.

use kofudile::{Hash256, Refusal, ffi, read_getdata, write_getdata, write_request};

/// The first 256 are all different, and every byte of a hash differs from the next.
fn hashes(count: usize) -> Vec<Hash256> {
    (0..count).map(|i| Hash256(std::array::from_fn(|byte| (i * 7 + byte * 37 + i / 256) as u8))).collect()
}

/// Type and hash of each entry.
fn entries(hashes: &[Hash256]) -> Vec<u8> {
    hashes.iter().flat_map(|hash| [[2, 0, 0, 0x40].as_slice(), &hash.0].concat()).collect()
}

fn payload(hashes: &[Hash256]) -> Vec<u8> {
    let count = hashes.len() as u16;
    let [low, high] = count.to_le_bytes();
    let count = if count < 253 { vec![low] } else { vec![253, low, high] };
    [count, entries(hashes)].concat()
}

fn refused(bytes: &[u8]) {
    assert_eq!(read_getdata(bytes), Err(Refusal::Payload), "{} bytes", bytes.len());
}

#[test]
fn written_and_read_at_every_count() {
    for count in 0..=256 {
        let hashes = hashes(count);
        let written = write_getdata(&hashes).unwrap();
        assert!(written == payload(&hashes), "{count} hashes");
        assert!(read_getdata(&written).as_ref() == Ok(&hashes), "{count} hashes");
    }
}

#[test]
fn a_request_is_written_without_its_heights() {
    for count in [0, 1, 252, 253, 256] {
        let hashes = hashes(count);
        let request: Vec<(Hash256, u32)> = hashes.iter().copied().zip(1_000..).collect();
        assert_eq!(write_request(&request), write_getdata(&hashes));
    }
}

#[test]
fn more_than_256_are_not_written() {
    for count in [257, 258, 70_000] {
        let hashes = hashes(count);
        let request: Vec<(Hash256, u32)> = hashes.iter().map(|hash| (*hash, 1)).collect();
        assert_eq!(write_getdata(&hashes), Err(Refusal::TooMany));
        assert_eq!(write_request(&request), Err(Refusal::TooMany));
    }
}

#[test]
fn more_than_256_are_not_read() {
    for count in [257, 300, 65_535] {
        refused(&payload(&hashes(count)));
    }
}

#[test]
fn a_byte_missing_or_left_over() {
    for count in [0, 1, 2, 252, 253, 256] {
        let mut bytes = payload(&hashes(count));
        bytes.push(0);
        refused(&bytes);
        bytes.truncate(bytes.len() - 2);
        refused(&bytes);
    }
    refused(&[]);
}

#[test]
fn a_count_in_another_form() {
    for count in [0u8, 1, 252] {
        let entries = entries(&hashes(count.into()));
        refused(&[[253, count, 0].as_slice(), &entries].concat());
        refused(&[[254, count, 0, 0, 0].as_slice(), &entries].concat());
        refused(&[[255, count, 0, 0, 0, 0, 0, 0, 0].as_slice(), &entries].concat());
    }
    for count in [253usize, 254, 255] {
        refused(&[[count as u8].as_slice(), &entries(&hashes(count))].concat());
    }
    refused(&[[253, 1, 0].as_slice(), &entries(&hashes(256))].concat());
    for short in [[253].as_slice(), &[253, 0], &[253, 0, 1]] {
        refused(short);
    }
}

#[test]
fn another_type() {
    let good = payload(&hashes(3));
    for entry in 0..3 {
        for byte in 0..4 {
            let mut bytes = good.clone();
            bytes[1 + 36 * entry + byte] ^= 1;
            refused(&bytes);
            bytes[1 + 36 * entry..5 + 36 * entry].copy_from_slice(&[0x40, 0, 0, 2]);
            refused(&bytes);
        }
    }
}

/// The raw layer, with too little lent: 8 before 10, 11 before 10, and nothing is written.
#[test]
fn too_little_lent() {
    let words = [7; 4 * 257];
    let mut out = [9; 37];
    // SAFETY: the lists are apart, and as long as is said.
    let mut write = |hashes: usize, bytes: usize| unsafe {
        ffi::kofudile_write_getdata_words(words.as_ptr(), 4 * hashes, out.as_mut_ptr(), bytes)
    };
    assert_eq!((write(1, 36).refused, write(0, 0).refused, write(257, 0).refused), (10, 10, 8));
    assert_eq!(out, [9; 37]);
    let (payload, mut places) = (payload(&hashes(1)), [5; 4]);
    // SAFETY: as above.
    let mut read = |bytes: usize, places_len: usize| unsafe {
        ffi::kofudile_read_getdata_words(payload.as_ptr(), bytes, places.as_mut_ptr(), places_len)
    };
    assert_eq!((read(37, 3).refused, read(36, 3).refused, read(37, 0).value), (10, 11, 0));
    assert_eq!(places, [5; 4]);
}

/// Whatever comes is answered, and what is accepted is written again as it came.
#[test]
fn any_bytes_are_answered() {
    let mut state = 88_172_645_463_325_252u64;
    let mut random = || {
        state ^= state << 13;
        state ^= state >> 7;
        state ^= state << 17;
        state
    };
    let mut accepted = 0;
    for _ in 0..20_000 {
        let mut bytes = payload(&hashes(random() as usize % 5));
        for _ in 0..random() % 3 {
            let at = random() as usize % bytes.len();
            bytes[at] = random() as u8;
        }
        bytes.truncate(bytes.len() - usize::from(random() % 8 == 0));
        match read_getdata(&bytes) {
            Ok(hashes) => {
                accepted += 1;
                assert_eq!(write_getdata(&hashes), Ok(bytes));
            }
            Err(refusal) => assert_eq!(refusal, Refusal::Payload),
        }
    }
    assert!((1_000..19_000).contains(&accepted), "{accepted} accepted");
}
