//! Stand-ins for what the original imports: just enough to compile it, and to hand in what
//! is handed in. What only left-out functions use has no behaviour.
#![allow(dead_code)]

pub mod bitcoin_rs_consensus {
    pub mod primitives {
        use std::fmt;

        /// Ordered by its 32 bytes, from the first.
        #[derive(Clone, Copy, PartialEq, Eq, PartialOrd, Ord, Hash, Debug)]
        pub struct Hash256(pub [u8; 32]);

        impl fmt::Display for Hash256 {
            fn fmt(&self, formatter: &mut fmt::Formatter<'_>) -> fmt::Result {
                write!(formatter, "{:?}", self.0)
            }
        }

        #[derive(Clone, Copy)]
        pub struct Network;

        impl Network {
            pub fn target_spacing_seconds(self) -> u32 {
                unreachable!("left out (SPECIFICATION 1.7)")
            }
        }

        pub fn unix_time_secs() -> u64 {
            unreachable!("left out (SPECIFICATION 1.7)")
        }
    }
}

pub mod bitcoin_rs_wire {
    /// A key, in the place of an address.
    #[derive(Clone, Copy, Debug, PartialEq, Eq, PartialOrd, Ord, Hash)]
    pub struct PeerEndpoint(pub u8);

    #[derive(Clone, Copy, Debug, PartialEq, Eq, PartialOrd, Ord, Hash)]
    pub struct ConnectionId(pub u8);

    pub struct PeerInfo {
        pub services: u64,
        pub best_known_height: i32,
        pub inbound: bool,
    }

    pub mod peer {
        pub const MAX_BLOCK_SERIALIZED_SIZE_USIZE: usize = 4_000_000;
    }

    pub mod connection {
        use super::{ConnectionId, PeerEndpoint};

        /// A seat with the key it was given at the opening; ordered by seat.
        #[derive(Clone, Copy, Debug, PartialEq, Eq, PartialOrd, Ord, Hash)]
        pub struct PeerSource {
            pub seat: u8,
            pub endpoint: Option<PeerEndpoint>,
        }

        impl PeerSource {
            pub fn endpoint(self) -> Option<PeerEndpoint> {
                self.endpoint
            }

            pub fn connection_id(self) -> ConnectionId {
                ConnectionId(self.seat)
            }
        }
    }
}

pub mod bitcoin_rs_execution {
    pub mod chain {
        use super::super::bitcoin_rs_consensus::primitives::{Hash256, Network};

        /// A height of the one chain that a plan is made over.
        #[derive(Clone, Copy, PartialEq, Eq)]
        pub struct NodeId(pub u32);

        pub struct Node {
            pub hash: Hash256,
            pub height: u32,
            pub parent: Option<NodeId>,
        }

        /// One chain, by height; for an observation the height of the one staged hash, if it knows any.
        #[derive(Default)]
        pub struct BlockTree {
            pub staged_height: Option<u32>,
            pub chain: Vec<Hash256>,
        }

        impl BlockTree {
            pub fn height_of_hash(&self, _hash: Hash256) -> Option<u32> {
                self.staged_height
            }

            pub fn lookup(&self, hash: Hash256) -> Option<NodeId> {
                let height = self.chain.iter().position(|found| *found == hash)?;
                Some(NodeId(height as u32))
            }

            pub fn node(&self, id: NodeId) -> Result<Node, ()> {
                let hash = *self.chain.get(id.0 as usize).ok_or(())?;
                Ok(Node { hash, height: id.0, parent: id.0.checked_sub(1).map(NodeId) })
            }

            pub fn node_at_height_from(&self, tip: NodeId, height: u32) -> Option<NodeId> {
                (height <= tip.0 && (height as usize) < self.chain.len()).then_some(NodeId(height))
            }
        }

        pub struct TipSnapshot {
            pub tip_id: NodeId,
            pub hash: Hash256,
            pub height: u32,
        }

        pub struct InitialBlockDownload;

        impl InitialBlockDownload {
            pub fn is_active(&self, _now: u64, _network: Network) -> bool {
                unreachable!("left out (SPECIFICATION 1.7)")
            }
        }
    }
}

pub mod p2p {
    use super::bitcoin_rs_consensus::primitives::Hash256;
    use super::hashbrown::HashSet;

    /// The handed-in values of one call.
    #[derive(Default)]
    pub struct BlockStager {
        /// For bytes and for blocks; where they are missing, the original works them out.
        pub headrooms: Option<(u64, u64)>,
        pub staged_count: u64,
        pub staged_bytes: u64,
        /// For a plan.
        pub staged_hashes: HashSet<Hash256>,
        /// For an observation: of the greatest height that the tree knows, or of a missing one.
        pub staged_hash: Option<Hash256>,
        /// The hash that an owned fetch asks about is staged.
        pub staged: bool,
        pub gate_cleared: bool,
    }

    impl BlockStager {
        pub fn byte_headroom(&self) -> Option<usize> {
            self.headrooms.map(|(bytes, _)| bytes as usize)
        }

        pub fn count_headroom(&self) -> Option<usize> {
            self.headrooms.map(|(_, count)| count as usize)
        }

        pub fn received_len(&self) -> usize {
            self.staged_count as usize
        }

        pub fn received_bytes(&self) -> usize {
            self.staged_bytes as usize
        }

        pub fn staged_hashes(&self) -> impl Iterator<Item = Hash256> + '_ {
            self.staged_hash.into_iter().chain(self.staged_hashes.iter().copied())
        }

        pub fn contains(&self, hash: &Hash256) -> bool {
            self.staged || self.staged_hashes.contains(hash)
        }

        pub fn clear_gate_pending(&mut self, _hash: &Hash256) {
            self.gate_cleared = true;
        }

        pub fn discard(&mut self, _hash: &Hash256) {
            unreachable!("left out (SPECIFICATION 1.7)")
        }
    }
}

pub mod bitcoin {
    pub mod p2p {
        pub struct ServiceFlags(u64);

        impl ServiceFlags {
            pub const NETWORK: ServiceFlags = ServiceFlags(1);
            pub const WITNESS: ServiceFlags = ServiceFlags(1 << 3);
            pub const NETWORK_LIMITED: ServiceFlags = ServiceFlags(1 << 10);

            pub const fn to_u64(self) -> u64 {
                self.0
            }
        }
    }
}

/// std's maps are hashbrown's, with a hasher seeded anew in each map.
#[cfg(feature = "own-maps")]
pub mod hashbrown {
    pub use std::collections::{HashMap, HashSet};
}

/// Ordered maps: runs can be repeated (docs/DIFFERENCES.md).
#[cfg(not(feature = "own-maps"))]
pub mod hashbrown {
    use std::collections::{BTreeMap, BTreeSet};
    use std::ops::{Deref, DerefMut};

    #[derive(Clone, Debug)]
    pub struct HashMap<K, V>(BTreeMap<K, V>);

    impl<K: Ord, V> HashMap<K, V> {
        pub fn new() -> Self {
            Self(BTreeMap::new())
        }

        pub fn with_capacity(_capacity: usize) -> Self {
            Self::new()
        }

        pub fn extract_if<F: FnMut(&K, &mut V) -> bool>(&mut self, goes: F) -> impl Iterator<Item = (K, V)> {
            self.0.extract_if(.., goes)
        }
    }

    impl<K, V> Deref for HashMap<K, V> {
        type Target = BTreeMap<K, V>;

        fn deref(&self) -> &Self::Target {
            &self.0
        }
    }

    impl<K, V> DerefMut for HashMap<K, V> {
        fn deref_mut(&mut self) -> &mut Self::Target {
            &mut self.0
        }
    }

    #[derive(Clone, Debug)]
    pub struct HashSet<T>(BTreeSet<T>);

    impl<T> Default for HashSet<T> {
        fn default() -> Self {
            Self(BTreeSet::new())
        }
    }

    impl<T: Ord> HashSet<T> {
        pub fn with_capacity(_capacity: usize) -> Self {
            Self(BTreeSet::new())
        }
    }

    impl<T> Deref for HashSet<T> {
        type Target = BTreeSet<T>;

        fn deref(&self) -> &Self::Target {
            &self.0
        }
    }

    impl<T> DerefMut for HashSet<T> {
        fn deref_mut(&mut self) -> &mut Self::Target {
            &mut self.0
        }
    }

    impl<T: Ord> FromIterator<T> for HashSet<T> {
        fn from_iter<I: IntoIterator<Item = T>>(items: I) -> Self {
            Self(items.into_iter().collect())
        }
    }
}

pub mod smallvec {
    use std::ops::{Deref, DerefMut};

    pub trait Array {
        type Item;
    }

    impl<T, const N: usize> Array for [T; N] {
        type Item = T;
    }

    /// A vector that is never inline: the original sees no difference.
    pub struct SmallVec<A: Array>(Vec<A::Item>);

    impl<A: Array> SmallVec<A> {
        pub fn new() -> Self {
            Self(Vec::new())
        }
    }

    impl<A: Array> Deref for SmallVec<A> {
        type Target = Vec<A::Item>;

        fn deref(&self) -> &Self::Target {
            &self.0
        }
    }

    impl<A: Array> DerefMut for SmallVec<A> {
        fn deref_mut(&mut self) -> &mut Self::Target {
            &mut self.0
        }
    }

    impl<A: Array> FromIterator<A::Item> for SmallVec<A> {
        fn from_iter<I: IntoIterator<Item = A::Item>>(items: I) -> Self {
            Self(items.into_iter().collect())
        }
    }

    impl<A: Array<Item: PartialEq>> PartialEq for SmallVec<A> {
        fn eq(&self, other: &Self) -> bool {
            self.0 == other.0
        }
    }

    impl<A: Array<Item: std::fmt::Debug>> std::fmt::Debug for SmallVec<A> {
        fn fmt(&self, formatter: &mut std::fmt::Formatter<'_>) -> std::fmt::Result {
            self.0.fmt(formatter)
        }
    }
}

pub mod metrics {
    pub struct Unmeasured;

    impl Unmeasured {
        pub fn increment(self, _by: u64) {}

        pub fn record(self, _value: f64) {}
    }

    macro_rules! unmeasured {
        ($($anything:tt)*) => {
            metrics::Unmeasured
        };
    }
    pub(crate) use unmeasured as counter;
    pub(crate) use unmeasured as histogram;
}

pub mod tracing {
    macro_rules! unlogged {
        ($($anything:tt)*) => {};
    }
    pub(crate) use unlogged as debug;
    pub(crate) use unlogged as info;
}
