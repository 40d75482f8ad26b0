// An independent reader: the list of SPECIFICATION 9.2, which words are a window, and the layout, read into a structure from front to back, with maps
// and options and no thought of speed. It says which of the conditions fails first, or what it read.
use std::collections::BTreeMap;

type Hash = [u64; 4];

struct Entry {
    hash: Hash,
    owner: u64,
    time: u64,
    height: u64,
    estimate: u64,
}

pub struct Read {
    pub records: usize,
}

const SEATS: usize = 256;
const U32: u64 = u32::MAX as u64;
const LONGEST: u64 = 10u64.pow(15);

// A part of the words that is read in order.
struct Cursor<'a> {
    left: &'a [u64],
}

impl<'a> Cursor<'a> {
    fn words(&mut self, n: usize) -> &'a [u64] {
        let (part, left) = self.left.split_at(n);
        self.left = left;
        part
    }
    fn word(&mut self) -> u64 {
        self.words(1)[0]
    }
    fn hash(&mut self) -> Hash {
        self.words(4).try_into().unwrap()
    }
    fn most(&mut self, limit: u64, what: &'static str) -> Result<u64, &'static str> {
        let x = self.word();
        if x > limit { Err(what) } else { Ok(x) }
    }
}

fn unused(part: &[u64], what: &'static str) -> Result<(), &'static str> {
    if part.iter().any(|&x| x != 0) { Err(what) } else { Ok(()) }
}

// A stored time: none, or one that is not after the last clock.
fn stored(word: u64, clock: u64, what: &'static str) -> Result<Option<u64>, &'static str> {
    match word.checked_sub(1) {
        None => Ok(None),
        Some(t) if t <= clock => Ok(Some(t)),
        Some(_) => Err(what),
    }
}

// A seat that may be missing.
fn source(word: u64, what: &'static str) -> Result<Option<u8>, &'static str> {
    match word {
        0 => Ok(None),
        s => u8::try_from(s - 1).map(Some).map_err(|_| what),
    }
}

fn seat(word: u64, what: &'static str) -> Result<u8, &'static str> {
    u8::try_from(word).map_err(|_| what)
}

pub fn read(all: &[u64]) -> Result<Read, &'static str> {
    if all.len() != 4096 {
        return Err("4,096 words");
    }
    let mut parts = Cursor { left: all };
    let columns: Vec<&[u64]> = (0..8).map(|_| parts.words(SEATS)).collect();
    unused(parts.words(SEATS), "unused: ninth column")?;
    let [starts, bodies, keys, cooling, racers] = [(); 5].map(|_| parts.words(SEATS));

    // the head
    let mut h = parts;
    if h.word() != 1 {
        return Err("format");
    }
    let count = h.most(256, "count")? as usize;
    let clock = h.most(1 << 62, "clock")?;
    let total = h.word();
    let (high_blocks, high_bytes) = (h.word(), h.word());
    let mean = h.word();
    if !(80..=U32).contains(&mean) {
        return Err("mean");
    }
    h.most(U32, "frontier")?;
    h.most(256, "settings: pending blocks")?;
    h.most(1 << 40, "settings: pending bytes")?;
    for _ in 0..5 {
        h.most(u16::MAX.into(), "settings: counts")?;
    }
    for _ in 0..5 {
        h.most(LONGEST, "settings: durations")?;
    }
    let _eligible = h.word();
    h.most(1, "engaged")?;
    let front_mean = h.word().checked_sub(1);
    if front_mean.is_some_and(|m| m > (1u64 << 62) / 1_000_000) {
        return Err("front mean");
    }
    stored(h.word(), clock, "last front advance")?;
    h.most(LONGEST, "stall wait")?;
    source(h.word(), "preferred")?;
    source(h.word(), "attempted")?;
    group(&mut h, clock, "stall", |w, _| seat(w, "stall").map(|_| ()))?;
    group(&mut h, clock, "stuck", |w, _| u32::try_from(w).map(|_| ()).map_err(|_| "stuck"))?;
    cold_front(&mut h, clock)?;
    hashes(&mut h, 2, "hedged fronts")?;
    observation(&mut h)?;
    let probing = probe(&mut h, clock)?;
    unused(h.left, "unused: end of the head")?;

    // the records
    let entry = |i: usize| Entry {
        hash: [columns[0][i], columns[1][i], columns[2][i], columns[3][i]],
        owner: columns[4][i],
        time: columns[5][i],
        height: columns[6][i],
        estimate: columns[7][i],
    };
    let entries: Vec<Entry> = (0..count).map(entry).collect();
    for column in &columns {
        unused(&column[count..], "unused: places after the records")?;
    }
    if entries.windows(2).any(|p| p[0].hash >= p[1].hash) {
        return Err("records rise strictly");
    }
    let mut oldest: BTreeMap<usize, u64> = BTreeMap::new();
    let mut sum = 0u128;
    for e in &entries {
        let owner = seat(e.owner, "owners are seats")? as usize;
        if e.time > clock {
            return Err("times of records");
        }
        if e.height > U32 {
            return Err("heights");
        }
        if !(80..=U32).contains(&e.estimate) {
            return Err("estimates");
        }
        sum += e.estimate as u128;
        oldest.entry(owner).and_modify(|t| *t = e.time.min(*t)).or_insert(e.time);
    }
    if sum != total as u128 {
        return Err("total");
    }
    if (high_blocks as u128) < count as u128 || (high_bytes as u128) < sum {
        return Err("high waters");
    }

    // the tables by seat and by key
    for s in 0..SEATS {
        match (stored(starts[s], clock, "start times")?, oldest.get(&s)) {
            (None, None) => {}
            (Some(start), Some(&old)) if start >= old => {}
            _ => return Err("start times and owned records"),
        }
        stored(bodies[s], clock, "last bodies")?;
        seat(keys[s], "keys")?;
        stored(cooling[s], clock, "cooling")?;
        match source_byte(racers[s]) {
            Ok(None) => {}
            Ok(Some(_)) if probing => {}
            _ => return Err("racers"),
        }
    }
    Ok(Read { records: count })
}

// A racer's progress byte, that may be missing.
fn source_byte(word: u64) -> Result<Option<u8>, &'static str> {
    source(word, "racers")
}

// A group of six words: a stored time, a word with a range of its own, a hash. Without the time all six are 0.
fn group(h: &mut Cursor, clock: u64, what: &'static str, check: impl Fn(u64, u64) -> Result<(), &'static str>) -> Result<(), &'static str> {
    let since = stored(h.word(), clock, what)?;
    let next = h.word();
    let hash = h.hash();
    match since {
        None if next == 0 && hash == [0; 4] => Ok(()),
        None => Err(what),
        Some(_) => check(next, clock),
    }
}

fn cold_front(h: &mut Cursor, clock: u64) -> Result<(), &'static str> {
    let (kind, owner, other, hash) = (h.word(), h.word(), h.word(), h.hash());
    match kind {
        0 if owner == 0 && other == 0 && hash == [0; 4] => Ok(()),
        1 => {
            seat(owner, "cold front")?;
            stored(other, clock, "cold front")?.map(|_| ()).ok_or("cold front")
        }
        2 => seat(owner, "cold front").and(seat(other, "cold front")).map(|_| ()),
        _ => Err("cold front"),
    }
}

// A count, and that many hashes of the room that there is; 0 after them.
fn hashes(h: &mut Cursor, room: u64, what: &'static str) -> Result<Vec<Hash>, &'static str> {
    let n = h.most(room, what)?;
    let list: Vec<Hash> = (0..room).map(|_| h.hash()).collect();
    let (used, left) = list.split_at(n as usize);
    if left.iter().flatten().any(|&x| x != 0) {
        return Err(what);
    }
    Ok(used.to_vec())
}

fn observation(h: &mut Cursor) -> Result<(), &'static str> {
    let (kind, owner, hash) = (h.word(), h.word(), h.hash());
    match kind {
        0 if owner == 0 && hash == [0; 4] => Ok(()),
        1 | 2 => seat(owner, "observation").map(|_| ()),
        _ => Err("observation"),
    }
}

// Whether there is a probe.
fn probe(h: &mut Cursor, clock: u64) -> Result<bool, &'static str> {
    let since = stored(h.word(), clock, "probe")?;
    let owner = h.word();
    let n = h.word();
    let accepted = h.word();
    let planned: Vec<Hash> = (0..8).map(|_| h.hash()).collect();
    if since.is_none() {
        let blank = owner == 0 && n == 0 && accepted == 0 && planned.iter().flatten().all(|&x| x == 0);
        return if blank { Ok(false) } else { Err("probe") };
    }
    seat(owner, "probe")?;
    u8::try_from(accepted).map_err(|_| "probe")?;
    if n > 8 || planned[n as usize..].iter().any(|p| *p != [0; 4]) {
        return Err("probe");
    }
    Ok(true)
}
