//! The stager, in the place of the oracle's: its staged hashes are in a set of the same maps as the window's.

use super::maps::HashSet;
use super::shims::bitcoin_rs_consensus::primitives::Hash256;

/// Without limits: every headroom is handed in as free, and nothing of what is staged counts bytes.
pub struct BlockStager {
    pub staged_count: usize,
    pub staged_hashes: HashSet<Hash256>,
}

impl BlockStager {
    /// So many staged, of which these are known by their hashes.
    pub fn with(staged_count: usize, hashes: impl IntoIterator<Item = Hash256>) -> Self {
        Self { staged_count, staged_hashes: hashes.into_iter().collect() }
    }

    pub fn byte_headroom(&self) -> Option<usize> {
        Some(usize::MAX)
    }

    pub fn count_headroom(&self) -> Option<usize> {
        Some(usize::MAX)
    }

    pub fn received_len(&self) -> usize {
        self.staged_count
    }

    pub fn received_bytes(&self) -> usize {
        0
    }

    pub fn staged_hashes(&self) -> impl Iterator<Item = Hash256> + '_ {
        self.staged_hashes.iter().copied()
    }

    pub fn contains(&self, hash: &Hash256) -> bool {
        self.staged_hashes.contains(hash)
    }

    pub fn clear_gate_pending(&mut self, _hash: &Hash256) {}

    pub fn discard(&mut self, _hash: &Hash256) {
        unreachable!("nothing staged is retired, and no branch is left")
    }
}
