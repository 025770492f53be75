//! Which nonces were used.

use super::Unproved;
use std::collections::hash_map::RandomState;
use std::collections::HashSet;
use std::hash::BuildHasher;
use std::sync::{Mutex, PoisonError};

/// Keeps which nonces were used. Several processes may share a store if `take` is one step of it, and not a look and a write.
pub trait TakeNonce {
    /// Keeps a nonce of a key for at least so many seconds from `now`, the time in seconds since 1970.
    ///
    /// # Errors
    /// If the nonce was used before, there is no room for it, or it may be forgotten, since the clock has gone back.
    fn take(&self, key: &[u8], nonce: &str, now: u64, seconds: u64) -> Result<(), Unproved>;
}

/// Nonces in two sets, as hashes of key and nonce. New ones go into the young set. Once the young set is as old as the time for which a nonce is
/// kept, the next `take` makes it the old set, and drops the one before. If it is twice as old, both are dropped. If two nonces have the same
/// hash, the second is refused.
#[derive(Debug)]
pub struct Nonces {
    /// How many each of the two sets may have.
    most: usize,
    hasher: RandomState,
    sets: Mutex<Sets>,
}

/// The hashes of the two sets. `young_since` is when the young set began, in seconds since 1970: 0 before the first nonce.
#[derive(Debug, Default)]
struct Sets {
    young_since: u64,
    old: HashSet<u64>,
    young: HashSet<u64>,
}

impl Nonces {
    /// Room for `most` nonces in each of the two sets. If the young set is full, a further nonce is refused, and its request with it. So
    /// `most` should be no less than the signed requests of the time for which a nonce is kept.
    #[must_use]
    pub fn new(most: usize) -> Nonces {
        Nonces {
            most,
            hasher: RandomState::new(),
            sets: Mutex::default(),
        }
    }
}

impl TakeNonce for Nonces {
    /// `seconds` must be the same in each call. Fails with `NonceSeen` for a nonce whose hash is kept, and with `StoreFull` if the young set is full:
    /// nothing is forgotten early. If the clock has gone back to over a second before the young set began, each nonce is refused as `BeforeStart`,
    /// since it may be forgotten.
    fn take(&self, key: &[u8], nonce: &str, now: u64, seconds: u64) -> Result<(), Unproved> {
        let hash = self.hasher.hash_one((key, nonce));
        let mut sets = self.sets.lock().unwrap_or_else(PoisonError::into_inner);
        if now.saturating_add(1) < sets.young_since {
            // (what was dropped had expired a second before the young set began)
            return Err(Unproved::BeforeStart);
        }
        sets.forget_old(now, seconds);
        if sets.old.contains(&hash) || sets.young.contains(&hash) {
            return Err(Unproved::NonceSeen);
        }
        if sets.young.len() >= self.most {
            return Err(Unproved::StoreFull);
        }
        sets.young.insert(hash);
        Ok(())
    }
}

impl Sets {
    /// Makes the young set the old one once it is `seconds` old at `now`, in seconds since 1970, and begins an empty one. If it is twice as old, its
    /// nonces are forgotten at once.
    fn forget_old(&mut self, now: u64, seconds: u64) {
        let age = now.saturating_sub(self.young_since);
        if age < seconds {
            return;
        }
        self.old = std::mem::take(&mut self.young);
        self.young_since = now;
        if age >= 2 * seconds {
            self.old.clear();
        }
    }
}
