//! Plans over lists that the comparison with the original leaves out: hashes named twice, chains that do not hold together, staged hashes that are pending.

use crate::data::*;
use crate::random::Random;
use std::collections::BTreeSet;

/// A plan with one to four changes of its lists. Headrooms are handed in, so that the original does not work them out.
pub fn spoiled(random: &mut Random, call: &Call, state: &State) -> Call {
    let mut call = call.clone();
    let (Call::NextPeerRequest { lent, .. } | Call::NextPeerRequestAllowingRetry { lent, .. }) = &mut call else {
        unreachable!("asked for plans only")
    };
    lent.staging = None;
    let pending: Vec<Hash> = state.pending.iter().map(|entry| entry.hash).collect();
    for _ in 0..1 + random.below(4) {
        let (place, other) = (random.below(lent.chain.len() as u64) as usize, random.below(lent.chain.len() as u64) as usize);
        let near = (place + 1).min(lent.chain.len() - 1);
        let hash = lent.chain[place];
        match random.below(9) {
            0 | 1 => lent.chain[near] = hash,
            2 => lent.chain[other] = hash,
            3 => lent.chain[place] = random.maybe(&pending).unwrap_or(Hash([7; 32])),
            4 => lent.chain[place..].reverse(),
            5 => lent.staged.extend([random.maybe(&lent.staged).unwrap_or(hash); 2]),
            6 => lent.staged.extend(&pending),
            7 => lent.refused.extend([hash; 2]),
            _ => lent.chain.fill(hash),
        }
    }
    call
}

/// Whether a request names a hash twice.
pub fn names_twice(answer: &Answer) -> bool {
    let Answer::Proposed(Some(request)) = answer else {
        return false;
    };
    let different: BTreeSet<Hash> = request.entries.iter().map(|(hash, _)| *hash).collect();
    different.len() < request.entries.len()
}
