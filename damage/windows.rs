// Windows of many kinds, word by word, for damage and bench/check.

pub struct Rng(pub u64);

impl Rng {
    pub fn next(&mut self) -> u64 {
        self.0 ^= self.0 << 13;
        self.0 ^= self.0 >> 7;
        self.0 ^= self.0 << 17;
        self.0
    }
    pub fn below(&mut self, n: u64) -> u64 {
        self.next() % n
    }
}

pub const HEAD: usize = 3584;
pub const MAX_DURATION: u64 = 1_000_000_000_000_000;
pub const MAX_U32: u64 = 4_294_967_295;

// What a window is to hold: records, seats that own them, and which of the head's groups are there.
pub struct Kind {
    pub records: usize,
    pub seats: u64,
    pub clock: u64,
    // hashes that differ from the one before in this word alone; 4 for hashes by chance
    pub differ: usize,
    pub stall: bool,
    pub stuck: bool,
    pub cold: u64,
    pub hedged: u64,
    pub observation: u64,
    pub probe: bool,
    pub planned: u64,
}

fn hashes(r: &mut Rng, n: usize, differ: usize) -> Vec<[u64; 4]> {
    let mut all: Vec<[u64; 4]> = (0..n)
        .map(|i| {
            if differ == 4 {
                return [r.next(), r.next(), r.next(), r.next()];
            }
            let mut h = [7, 1 << 40, 0, u64::MAX];
            h[differ] = 3 * i as u64 + r.below(3);
            h
        })
        .collect();
    all.sort();
    all
}

fn put_hash(r: &mut Rng, w: &mut [u64], at: usize) {
    for k in 0..4 {
        w[at + k] = r.next();
    }
}

pub fn window(r: &mut Rng, kind: &Kind) -> Vec<u64> {
    let (n, clock) = (kind.records, kind.clock);
    let mut w = vec![0u64; 4096];
    let mut oldest = [None; 256];
    let mut total = 0;
    for (i, h) in hashes(r, n, kind.differ).into_iter().enumerate() {
        for c in 0..4 {
            w[256 * c + i] = h[c];
        }
        let (owner, time) = (r.below(kind.seats), r.below(clock + 1));
        w[1024 + i] = owner;
        w[1280 + i] = time;
        w[1536 + i] = r.below(MAX_U32 + 1);
        w[1792 + i] = [80, MAX_U32, 80 + r.below(1 << 31)][r.below(3) as usize];
        total += w[1792 + i];
        let seat = &mut oldest[owner as usize];
        *seat = Some(seat.map_or(time, |t: u64| t.min(time)));
    }
    for s in 0..256 {
        if let Some(t) = oldest[s] {
            w[2304 + s] = [t + 1, clock + 1, t + 1 + r.below(clock - t + 1)][r.below(3) as usize];
        }
        w[2560 + s] = r.below(clock + 2);
        w[2816 + s] = r.below(256);
        w[3072 + s] = r.below(clock + 2);
        w[3328 + s] = if kind.probe { r.below(257) } else { 0 };
    }
    let h = &mut w[HEAD..];
    h[0] = 1;
    h[1] = n as u64;
    h[2] = clock;
    h[3] = total;
    h[4] = n as u64 + r.below(2);
    h[5] = total + r.below(2);
    h[6] = [80, MAX_U32, 262_144][r.below(3) as usize];
    h[7] = r.below(MAX_U32 + 1);
    h[8] = r.below(257);
    h[9] = r.below((1 << 40) + 1);
    for k in 10..15 {
        h[k] = r.below(65_536);
    }
    for k in 15..20 {
        h[k] = r.below(MAX_DURATION + 1);
    }
    h[20] = r.next();
    h[21] = r.below(2);
    h[22] = r.below(4_611_686_018_429);
    h[23] = r.below(clock + 2);
    h[24] = r.below(MAX_DURATION + 1);
    h[25] = r.below(257);
    h[26] = r.below(257);
    if kind.stall {
        h[27] = 1 + r.below(clock + 1);
        h[28] = r.below(256);
        put_hash(r, h, 29);
    }
    if kind.stuck {
        h[33] = 1 + r.below(clock + 1);
        h[34] = r.below(MAX_U32 + 1);
        put_hash(r, h, 35);
    }
    h[39] = kind.cold;
    if kind.cold > 0 {
        h[40] = r.below(256);
        h[41] = if kind.cold == 1 { 1 + r.below(clock + 1) } else { r.below(256) };
        put_hash(r, h, 42);
    }
    h[46] = kind.hedged;
    for k in 0..kind.hedged as usize {
        put_hash(r, h, 47 + 4 * k);
    }
    h[55] = kind.observation;
    if kind.observation > 0 {
        h[56] = r.below(256);
        put_hash(r, h, 57);
    }
    if kind.probe {
        h[61] = 1 + r.below(clock + 1);
        h[62] = r.below(256);
        h[63] = kind.planned;
        h[64] = r.below(256);
        for k in 0..kind.planned as usize {
            put_hash(r, h, 65 + 4 * k);
        }
    }
    w
}

pub fn kind(r: &mut Rng, records: usize) -> Kind {
    Kind {
        records,
        seats: [1, 3, 256][r.below(3) as usize],
        clock: [0, 5, 1 << 40, 1 << 62][r.below(4) as usize],
        differ: r.below(5) as usize,
        stall: r.below(2) == 0,
        stuck: r.below(2) == 0,
        cold: r.below(3),
        hedged: r.below(3),
        observation: r.below(3),
        probe: r.below(2) == 0,
        planned: r.below(9),
    }
}
