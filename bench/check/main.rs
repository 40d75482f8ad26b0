// The proved check beside the same check in Rust, in one run: ns and the ratio. From the repository:
// tools/archive check_export && rustc --edition 2021 -C opt-level=3 bench/check/main.rs -L target/staticlib -l static=check_export -o target/bench_check && target/bench_check
#[path = "../../damage/windows.rs"]
mod windows;
mod twin;

use std::hint::black_box;
use std::time::Instant;
use twin::twin;
use windows::{kind, window, Kind, Rng};

extern "C" {
    fn check_words(p: *const u64, n: usize) -> bool;
}

fn proved(w: &[u64]) -> bool {
    unsafe { check_words(w.as_ptr(), w.len()) }
}

// On a page of its own: the times depend on how the words lie.
#[repr(align(4096))]
struct Page([u64; 4096]);

fn once(w: &[u64], f: fn(&[u64]) -> bool) -> f64 {
    let k = 2000;
    let start = Instant::now();
    for _ in 0..k {
        assert!(black_box(f(black_box(w))));
    }
    start.elapsed().as_nanos() as f64 / k as f64
}

fn main() {
    let mut r = Rng(88172645463325252);
    let (mut yes, mut no) = (0, 0);
    for round in 0..20000 {
        let k = kind(&mut r, [0, 1, 2, 100, 255, 256][round % 6]);
        let mut w = window(&mut r, &k);
        assert!(twin(&w) && proved(&w), "round {round}");
        for _ in 0..8 {
            let at = if r.below(2) == 0 { 3584 + r.below(100) } else { r.below(4096) } as usize;
            let old = w[at];
            w[at] = [0, r.next(), old.wrapping_add(1), old.wrapping_sub(1), r.below(300), old ^ (1 << r.below(64))][r.below(6) as usize];
            assert_eq!(twin(&w), proved(&w), "round {round}, word {at}: {old} to {}", w[at]);
            *(if twin(&w) { &mut yes } else { &mut no }) += 1;
            w[at] = old;
        }
    }
    assert!(!proved(&[1; 4095]) && !proved(&[]));
    println!("answers alike: {yes} changed windows accepted, {no} refused");
    println!("least of 200 rounds, in turn        proved      Rust -O3   ratio      sum of the words");
    for (name, records, all) in [("0 records", 0, false), ("64 records", 64, false), ("256 records", 256, false), ("256 records, whole head", 256, true)] {
        let k = Kind {
            records,
            seats: 256,
            clock: 1 << 40,
            differ: 4,
            stall: all,
            stuck: all,
            cold: all as u64,
            hedged: 2 * all as u64,
            observation: all as u64,
            probe: all,
            planned: 8 * all as u64,
        };
        let page = Box::new(Page(window(&mut r, &k).try_into().unwrap()));
        let w = &page.0[..];
        let mut best = [f64::MAX; 3];
        for _ in 0..200 {
            best[0] = best[0].min(once(w, proved));
            best[1] = best[1].min(once(w, twin));
            best[2] = best[2].min(once(w, |w| w.iter().fold(0u64, |x, y| x.wrapping_add(*y)) != 7));
        }
        println!("  {name:30} {:7.0} ns {:9.0} ns   {:5.2}   {:12.0} ns", best[0], best[1], best[0] / best[1], best[2]);
    }
}
