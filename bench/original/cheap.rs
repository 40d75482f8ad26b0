//! std's maps with a hasher of one multiplication a word, in the way of the default one of the hashbrown crate.

use std::hash::{BuildHasherDefault, Hasher};

#[derive(Clone, Copy, Default)]
pub struct Cheap(u64);

impl Cheap {
    #[inline]
    fn add(&mut self, word: u64) {
        let product = u128::from(self.0 ^ word) * 0x9e37_79b9_7f4a_7c15_f39c_c060_5ced_c835;
        self.0 = product as u64 ^ (product >> 64) as u64;
    }
}

impl Hasher for Cheap {
    #[inline]
    fn write(&mut self, bytes: &[u8]) {
        let mut words = bytes.chunks_exact(8);
        for word in &mut words {
            self.add(u64::from_le_bytes(word.try_into().expect("eight bytes")));
        }
        for byte in words.remainder() {
            self.add(u64::from(*byte));
        }
    }

    #[inline]
    fn write_u8(&mut self, value: u8) {
        self.add(u64::from(value));
    }

    #[inline]
    fn write_u64(&mut self, value: u64) {
        self.add(value);
    }

    #[inline]
    fn write_usize(&mut self, value: usize) {
        self.add(value as u64);
    }

    #[inline]
    fn finish(&self) -> u64 {
        self.0
    }
}

pub mod hashbrown {
    use super::{BuildHasherDefault, Cheap};
    use std::collections;
    use std::hash::Hash;
    use std::ops::{Deref, DerefMut};

    type Map<K, V> = collections::HashMap<K, V, BuildHasherDefault<Cheap>>;
    type Set<T> = collections::HashSet<T, BuildHasherDefault<Cheap>>;

    #[derive(Clone, Debug)]
    pub struct HashMap<K, V>(Map<K, V>);

    impl<K, V> HashMap<K, V> {
        pub fn new() -> Self {
            Self(Map::default())
        }

        pub fn with_capacity(capacity: usize) -> Self {
            Self(Map::with_capacity_and_hasher(capacity, BuildHasherDefault::default()))
        }
    }

    impl<K, V> Deref for HashMap<K, V> {
        type Target = Map<K, V>;

        fn deref(&self) -> &Self::Target {
            &self.0
        }
    }

    impl<K, V> DerefMut for HashMap<K, V> {
        fn deref_mut(&mut self) -> &mut Self::Target {
            &mut self.0
        }
    }

    #[derive(Clone, Debug)]
    pub struct HashSet<T>(Set<T>);

    impl<T> HashSet<T> {
        pub fn with_capacity(capacity: usize) -> Self {
            Self(Set::with_capacity_and_hasher(capacity, BuildHasherDefault::default()))
        }
    }

    impl<T> Deref for HashSet<T> {
        type Target = Set<T>;

        fn deref(&self) -> &Self::Target {
            &self.0
        }
    }

    impl<T> DerefMut for HashSet<T> {
        fn deref_mut(&mut self) -> &mut Self::Target {
            &mut self.0
        }
    }

    impl<T: Hash + Eq> FromIterator<T> for HashSet<T> {
        fn from_iter<I: IntoIterator<Item = T>>(items: I) -> Self {
            Self(items.into_iter().collect())
        }
    }
}
