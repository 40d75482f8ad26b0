// The check of the words once more, by hand in Rust: the same formulation as the proved one.

const M: u64 = 0xffff_ffff;
const DURATION: u64 = 1_000_000_000_000_000;

#[inline]
fn any(w: &[u64; 4096], a: usize, n: usize) -> u64 {
    w[a..a + n].iter().fold(0, |x, y| x | y)
}

#[inline]
fn over(max: u64, x: u64) -> u64 {
    x | max.wrapping_sub(x)
}

fn above(w: &[u64; 4096], i: usize) -> bool {
    if i == 0 {
        return true;
    }
    let j = i - 1;
    if w[j] != w[i] {
        return w[j] < w[i];
    }
    if w[256 + j] != w[256 + i] {
        return w[256 + j] < w[256 + i];
    }
    if w[512 + j] != w[512 + i] {
        return w[512 + j] < w[512 + i];
    }
    w[768 + j] < w[768 + i]
}

fn head(w: &[u64; 4096]) -> bool {
    let h = &w[3584..];
    let (n, clock) = (h[1], h[2]);
    if !((h[0] == 1) & (n <= 256) & (clock <= 1 << 62) & (n <= h[4]) & (h[3] <= h[5]) & (80 <= h[6]) & (h[6] <= M) & (h[7] <= M))
    {
        return false;
    }
    let latest = clock + 1;
    let settings = (h[8] <= 256)
        & (h[9] <= 1 << 40)
        & h[10..15].iter().fold(true, |q, &x| q & (x <= 65535))
        & h[15..20].iter().fold(true, |q, &x| q & (x <= DURATION));
    let small =
        (h[21] <= 1) & (h[22] <= 4_611_686_018_428) & (h[23] <= latest) & (h[24] <= DURATION) & (h[25] <= 256) & (h[26] <= 256);
    let stall = if h[27] == 0 { any(w, 3611, 6) == 0 } else { (h[27] <= latest) & (h[28] <= 255) };
    let stuck = if h[33] == 0 { any(w, 3617, 6) == 0 } else { (h[33] <= latest) & (h[34] <= M) };
    let cold = match h[39] {
        0 => any(w, 3623, 7) == 0,
        1 => (h[40] <= 255) & (0 < h[41]) & (h[41] <= latest),
        2 => (h[40] <= 255) & (h[41] <= 255),
        _ => false,
    };
    let k = h[46] as usize;
    let hedged = k <= 2 && any(w, 3631 + 4 * k, 8 - 4 * k) == 0;
    let seen = if h[55] == 0 { any(w, 3639, 6) == 0 } else { (h[55] <= 2) & (h[56] <= 255) };
    let p = h[63] as usize;
    let probe = if h[61] == 0 {
        any(w, 3645, 36) == 0
    } else {
        (h[61] <= latest) & (h[62] <= 255) & (h[64] <= 255) && p <= 8 && any(w, 3649 + 4 * p, 32 - 4 * p) == 0
    };
    settings & small & stall & stuck & cold & hedged & seen & probe & (any(w, 3681, 415) == 0)
}

#[inline(never)]
pub fn twin(s: &[u64]) -> bool {
    let Ok(w) = <&[u64; 4096]>::try_from(s) else { return false };
    if !head(w) {
        return false;
    }
    let (n, clock) = (w[3585] as usize, w[3586]);
    let mut acc = 0;
    for i in n..256 {
        acc |= w[i] | w[256 + i] | w[512 + i] | w[768 + i] | w[1024 + i] | w[1280 + i] | w[1536 + i] | w[1792 + i];
    }
    if acc | any(w, 2048, 256) != 0 {
        return false;
    }
    let mut first = [0u64; 256];
    let mut sum = 0;
    for i in 0..n {
        let (o, t, h, x) = (w[1024 + i], w[1280 + i], w[1536 + i], w[1792 + i]);
        if !((o <= 255) & (t <= clock) & (h <= M) & (80 <= x) & (x <= M)) {
            return false;
        }
        if !above(w, i) {
            return false;
        }
        let m = first[o as usize];
        first[o as usize] = if t < m.wrapping_sub(1) { t + 1 } else { m };
        sum += x;
    }
    if sum != w[3587] {
        return false;
    }
    let (latest, most) = (clock + 1, if w[3645] == 0 { 0 } else { 256 });
    let mut acc = 0;
    for s in 0..256 {
        let (g, a) = (first[s], w[2304 + s]);
        acc |= over(latest, a) | a.wrapping_sub(g) | (0u64.wrapping_sub(a) & g.wrapping_sub(1));
        acc |= over(latest, w[2560 + s]) | over(255, w[2816 + s]) | over(latest, w[3072 + s]) | over(most, w[3328 + s]);
    }
    acc >> 63 == 0
}
