// Windows broken one word at a time: every word of the 4,096, many values each. The proved check and an independent reader must agree on every case. From
// the repository:
// tools/archive check_export && rustc --edition 2021 -C opt-level=3 damage/main.rs -L target/staticlib -l static=check_export -o target/damage && target/damage
mod reader;
mod windows;

use std::collections::{BTreeMap, BTreeSet};
use windows::{kind, window, Rng};

extern "C" {
    fn check_words(p: *const u64, n: usize) -> bool;
}

fn proved(w: &[u64]) -> bool {
    unsafe { check_words(w.as_ptr(), w.len()) }
}

// Both answers on w; what they agree on.
fn asked(w: &[u64], what: impl Fn() -> String) -> Result<reader::Read, &'static str> {
    let r = reader::read(w);
    assert_eq!(r.is_ok(), proved(w), "{}: the reader says {:?}", what(), r.as_ref().err());
    r
}

// Values to put in the place of the word at `at`.
fn values(r: &mut Rng, w: &[u64], at: usize) -> BTreeSet<u64> {
    let (old, clock) = (w[at], w[3586]);
    let mut all: BTreeSet<u64> = [0, 1, 2, 3, 8, 9, 79, 80, 255, 256, 257, 65_535, 65_536, u32::MAX as u64, 1 << 32].into();
    all.extend([1 << 40, (1 << 40) + 1, 10u64.pow(15), 10u64.pow(15) + 1, 4_611_686_018_428, 4_611_686_018_429]);
    all.extend([clock, clock + 1, clock + 2, 1 << 62, (1 << 62) + 1, 1 << 63, u64::MAX]);
    all.extend([old.wrapping_add(1), old.wrapping_sub(1), old ^ 1 << r.below(64), r.next()]);
    // the words beside it, so that two records may come to have one hash
    all.extend([w[at.saturating_sub(1)], w[(at + 1).min(4095)]]);
    all.remove(&old);
    all
}

fn main() {
    let mut r = Rng(0x9e37_79b9_7f4a_7c15);
    let rounds: usize = std::env::args().nth(1).map_or(24, |n| n.parse().unwrap());
    let (mut cases, mut kept) = (0u64, 0u64);
    let mut refused: BTreeMap<&str, u64> = BTreeMap::new();
    let mut never = vec![true; 4096];
    for round in 0..rounds {
        let k = kind(&mut r, [0, 1, 2, 17, 64, 255, 256][round % 7]);
        let mut w = window(&mut r, &k);
        let whole = asked(&w, || format!("window {round}")).unwrap_or_else(|e| panic!("window {round} is none: {e}"));
        assert_eq!(whole.records, k.records);
        for at in 0..4096 {
            let old = w[at];
            for x in values(&mut r, &w, at) {
                w[at] = x;
                cases += 1;
                match asked(&w, || format!("window {round}, word {at}: {old} to {x}")) {
                    Ok(_) => kept += 1,
                    Err(what) => {
                        *refused.entry(what).or_default() += 1;
                        never[at] = false;
                    }
                }
            }
            w[at] = old;
        }
        for n in [0, 1, 4095, 4097, 8192] {
            let mut v = w.clone();
            v.resize(n, 0);
            cases += 1;
            let what = asked(&v, || format!("window {round}, {n} words")).err().expect("refused");
            *refused.entry(what).or_default() += 1;
        }
    }
    let broken: u64 = refused.values().sum();
    println!("{rounds} windows, {cases} cases, one word changed in each: {broken} refused, {kept} still a window; the reader agrees on all");
    for (what, n) in &refused {
        println!("  {n:9}  {what}");
    }
    let free: Vec<usize> = (0..4096).filter(|&i| never[i]).collect();
    println!("words that no change of them broke: {free:?} (3604 is the head's word 20, eligible peers: any number)");
    assert_eq!(free, [3604], "every other word can break a window");
    println!("{rounds} passed, 0 failed");
}
