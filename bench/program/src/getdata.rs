//! getdata's payload, written and read: ours beside plain Rust, once with a vector that is kept, as one would write it first, and once into a lent slice, as
//! ours does it. All refuse the same lists and payloads; with a vector no output is too short.

use crate::rows::Random;
use crate::ticks::{Timer, median, timed};

/// Hashes in a payload.
const COUNTS: [usize; 4] = [1, 16, 64, 256];
/// Lists of each length, timed in one go: a short one alone takes too little time.
const LISTS: usize = 16;
const MOST: usize = 256;
const ENTRY: usize = 36;
const MOST_BYTES: usize = 3 + ENTRY * MOST;
const WITNESS_BLOCK: [u8; 4] = 0x4000_0002_u32.to_le_bytes();

#[repr(C)]
struct Number {
    refused: u64,
    value: u64,
}

#[rustfmt::skip]
unsafe extern "C" {
    fn kofudile_write_getdata_words(hash_words: *const u64, hash_words_len: usize, out: *mut u8, out_len: usize) -> Number;
    fn kofudile_read_getdata_words(payload: *const u8, payload_len: usize, hash_words: *mut u64, hash_words_len: usize) -> Number;
}

/// How many bytes or hashes were written, or the refusal's number.
type Said = Result<usize, u64>;

fn said(answer: Number) -> Said {
    if answer.refused == 0 { Ok(answer.value as usize) } else { Err(answer.refused) }
}

fn ours_write(hashes: &[u64], out: &mut [u8]) -> Said {
    said(unsafe { kofudile_write_getdata_words(hashes.as_ptr(), hashes.len(), out.as_mut_ptr(), out.len()) })
}

fn ours_read(payload: &[u8], hashes: &mut [u64]) -> Said {
    said(unsafe { kofudile_read_getdata_words(payload.as_ptr(), payload.len(), hashes.as_mut_ptr(), hashes.len()) })
}

#[inline(never)]
fn vec_write(hashes: &[u64], out: &mut Vec<u8>) -> Said {
    let count = hashes.len() / 4;
    if count > MOST {
        return Err(8);
    }
    out.clear();
    if count < 253 {
        out.push(count as u8);
    } else {
        out.push(253);
        out.extend_from_slice(&(count as u16).to_le_bytes());
    }
    for hash in hashes.chunks_exact(4) {
        out.extend_from_slice(&WITNESS_BLOCK);
        for word in hash {
            out.extend_from_slice(&word.to_be_bytes());
        }
    }
    Ok(out.len())
}

#[inline(never)]
fn slice_write(hashes: &[u64], out: &mut [u8]) -> Said {
    let count = hashes.len() / 4;
    if count > MOST {
        return Err(8);
    }
    let start = if count < 253 { 1 } else { 3 };
    let length = start + ENTRY * count;
    if out.len() < length {
        return Err(10);
    }
    if count < 253 {
        out[0] = count as u8;
    } else {
        out[0] = 253;
        out[1..3].copy_from_slice(&(count as u16).to_le_bytes());
    }
    for (entry, hash) in out[start..length].chunks_exact_mut(ENTRY).zip(hashes.chunks_exact(4)) {
        entry[..4].copy_from_slice(&WITNESS_BLOCK);
        for (bytes, word) in entry[4..].chunks_exact_mut(8).zip(hash) {
            bytes.copy_from_slice(&word.to_be_bytes());
        }
    }
    Ok(length)
}

/// The count and what follows it, where its form and the length are right.
#[inline(always)]
fn entries(payload: &[u8]) -> Option<(usize, &[u8])> {
    let (count, entries) = match payload {
        [253, low, high, entries @ ..] => (usize::from(u16::from_le_bytes([*low, *high])), entries),
        [count @ 0..253, entries @ ..] => (usize::from(*count), entries),
        _ => return None,
    };
    let shortest = (payload[0] == 253) == (count >= 253);
    (shortest && count <= MOST && entries.len() == ENTRY * count).then_some((count, entries))
}

fn word(bytes: &[u8]) -> u64 {
    u64::from_be_bytes(bytes.try_into().expect("eight bytes"))
}

#[inline(never)]
fn vec_read(payload: &[u8], hashes: &mut Vec<u64>) -> Said {
    let Some((count, entries)) = entries(payload) else { return Err(11) };
    hashes.clear();
    for entry in entries.chunks_exact(ENTRY) {
        if entry[..4] != WITNESS_BLOCK {
            return Err(11);
        }
        hashes.extend(entry[4..].chunks_exact(8).map(word));
    }
    Ok(count)
}

#[inline(never)]
fn slice_read(payload: &[u8], hashes: &mut [u64]) -> Said {
    let Some((count, entries)) = entries(payload) else { return Err(11) };
    if entries.chunks_exact(ENTRY).any(|entry| entry[..4] != WITNESS_BLOCK) {
        return Err(11);
    }
    if hashes.len() < 4 * count {
        return Err(10);
    }
    for (entry, hash) in entries.chunks_exact(ENTRY).zip(hashes.chunks_exact_mut(4)) {
        for (bytes, place) in entry[4..].chunks_exact(8).zip(hash) {
            *place = word(bytes);
        }
    }
    Ok(count)
}

/// Medians in nanoseconds.
pub struct Times {
    pub work: &'static str,
    pub hashes: usize,
    pub bytes: usize,
    pub ours: f64,
    pub vec: f64,
    pub slice: f64,
}

struct List {
    hashes: Vec<u64>,
    payload: Vec<u8>,
}

/// As much as any payload needs, whatever the list's length.
struct Lent {
    out: Vec<u8>,
    places: Vec<u64>,
    kept_out: Vec<u8>,
    kept_places: Vec<u64>,
}

/// One length's lists, and memory to be lent.
struct Bench {
    lists: Vec<List>,
    lent: Lent,
}

impl Bench {
    fn new(count: usize) -> Self {
        let mut random = Random(88_172_645_463_325_252 + count as u64);
        let lent = Lent { out: vec![0; MOST_BYTES], places: vec![0; 4 * MOST], kept_out: Vec::new(), kept_places: Vec::new() };
        let mut bench = Self { lists: Vec::new(), lent };
        for _ in 0..LISTS {
            let hashes = (0..4 * count).map(|_| random.next()).collect();
            bench.add(hashes);
        }
        bench
    }

    /// All write the same payload, and read the same hashes from it.
    fn add(&mut self, hashes: Vec<u64>) {
        let Lent { out, places, kept_out, kept_places } = &mut self.lent;
        let (length, count) = (vec_write(&hashes, kept_out).expect("it is written"), hashes.len() / 4);
        for write in [ours_write, slice_write] {
            out.fill(0);
            assert_eq!((write(&hashes, out), &out[..length]), (Ok(length), &kept_out[..]));
        }
        assert_eq!((vec_read(kept_out, kept_places), &*kept_places), (Ok(count), &hashes));
        for read in [ours_read, slice_read] {
            places.fill(0);
            assert_eq!((read(kept_out, places), &places[..4 * count]), (Ok(count), &hashes[..]));
        }
        self.lists.push(List { hashes, payload: kept_out.clone() });
    }

    /// The ticks of a hundred times all lists.
    #[inline(always)]
    fn sampled(&mut self, samples: &mut Vec<u64>, work: impl Fn(&List, &mut Lent) -> Said) {
        let Self { lists, lent } = self;
        for _ in 0..100 {
            let (ticks, accepted) = timed(|| lists.iter().filter(|list| work(list, lent).is_ok()).count());
            assert_eq!(accepted, LISTS, "refused");
            samples.push(ticks);
        }
    }
}

/// The three take turns, a hundred samples of each.
pub fn measured(timer: &Timer, rounds: usize) -> Vec<Times> {
    let mut times = Vec::new();
    for hashes in COUNTS {
        let mut bench = Bench::new(hashes);
        let mut ticks: [Vec<u64>; 6] = Default::default();
        for _ in 0..rounds {
            bench.sampled(&mut ticks[0], |list, lent| ours_write(&list.hashes, &mut lent.out));
            bench.sampled(&mut ticks[1], |list, lent| vec_write(&list.hashes, &mut lent.kept_out));
            bench.sampled(&mut ticks[2], |list, lent| slice_write(&list.hashes, &mut lent.out));
            bench.sampled(&mut ticks[3], |list, lent| ours_read(&list.payload, &mut lent.places));
            bench.sampled(&mut ticks[4], |list, lent| vec_read(&list.payload, &mut lent.kept_places));
            bench.sampled(&mut ticks[5], |list, lent| slice_read(&list.payload, &mut lent.places));
        }
        let bytes = bench.lists[0].payload.len();
        let ns = ticks.map(|mut samples| timer.ns(median(&mut samples)) / LISTS as f64);
        times.push(Times { work: "written", hashes, bytes, ours: ns[0], vec: ns[1], slice: ns[2] });
        times.push(Times { work: "read", hashes, bytes, ours: ns[3], vec: ns[4], slice: ns[5] });
    }
    times.sort_by_key(|times| times.work == "read");
    times
}

/// One of the two on one side, for a profiler.
pub fn count(row: &str, subject: &str, hashes: usize, times: usize) {
    let mut bench = Bench::new(hashes);
    let Bench { lists, lent } = &mut bench;
    for list in lists.iter().cycle().take(times) {
        let said = match (row, subject) {
            ("Write", "ours") => ours_write(&list.hashes, &mut lent.out),
            ("Write", "vec") => vec_write(&list.hashes, &mut lent.kept_out),
            ("Write", "slice") => slice_write(&list.hashes, &mut lent.out),
            ("Read", "ours") => ours_read(&list.payload, &mut lent.places),
            ("Read", "vec") => vec_read(&list.payload, &mut lent.kept_places),
            ("Read", "slice") => slice_read(&list.payload, &mut lent.places),
            _ => panic!("ours, vec or slice"),
        };
        assert!(said.is_ok(), "refused");
    }
}
