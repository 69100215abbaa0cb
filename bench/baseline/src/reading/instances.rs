//! The instances of processes and runnables that need an entry, found by hash.
//! There is room for so many at once; an entry that is given back serves for
//! others.

use super::event_rules::States;

const MOST_INSTANCES: usize = 1024;

/// Twice the entries, so that a free place is never far.
const PLACES: usize = 2 * MOST_INSTANCES;
const FREE: u64 = u64::MAX;

/// The number of a name, which is below 256, and an instance's own number.
pub type Key = u64;

#[inline(always)]
pub fn key_of(name: usize, number: u64) -> Key {
    (name as u64) << 32 | number
}

#[inline(always)]
pub fn name_of(key: Key) -> usize {
    (key >> 32) as usize
}

pub struct Instances {
    /// At each place an instance's key above its states, or FREE; on a clash the
    /// next place.
    places: Vec<u64>,
    count: usize,
}

impl Instances {
    pub fn new() -> Instances {
        Instances { places: vec![FREE; PLACES], count: 0 }
    }

    #[inline(always)]
    pub fn are_full(&self) -> bool {
        self.count == MOST_INSTANCES
    }

    /// The place of an instance, which holds until one is removed.
    #[inline(always)]
    pub fn find(&self, key: Key) -> Option<usize> {
        let mut place = place_of(key);
        loop {
            let entry = self.places[place];
            if entry >> 8 == key {
                return Some(place);
            }
            if entry == FREE {
                return None;
            }
            place = after(place);
        }
    }

    #[inline(always)]
    pub fn states(&self, place: usize) -> States {
        self.places[place] as States
    }

    #[inline(always)]
    pub fn change(&mut self, place: usize, states: States) {
        self.places[place] = entry_of(self.places[place] >> 8, states);
    }

    /// Adds an instance that has no entry, where there is room.
    #[inline]
    pub fn add(&mut self, key: Key, states: States) {
        let mut place = place_of(key);
        while self.places[place] != FREE {
            place = after(place);
        }
        self.places[place] = entry_of(key, states);
        self.count += 1;
    }

    /// Gives the room of an instance back. Those behind it, up to a free place,
    /// are moved up where the way to them would lead over the gap: so no trace
    /// of it is left, however many come and go.
    #[inline]
    pub fn remove(&mut self, place: usize) {
        let mut gap = place;
        let mut at = after(gap);
        while self.places[at] != FREE {
            let first = place_of(self.places[at] >> 8);
            if steps(first, at) >= steps(gap, at) {
                self.places[gap] = self.places[at];
                gap = at;
            }
            at = after(at);
        }
        self.places[gap] = FREE;
        self.count -= 1;
    }
}

#[inline(always)]
fn entry_of(key: Key, states: States) -> u64 {
    key << 8 | u64::from(states)
}

/// The first place to look at.
#[inline(always)]
fn place_of(key: Key) -> usize {
    (key.wrapping_mul(0x9e37_79b9_7f4a_7c15) >> 53) as usize % PLACES
}

#[inline(always)]
fn after(place: usize) -> usize {
    (place + 1) % PLACES
}

/// How many places further, from one to the other.
#[inline(always)]
fn steps(from: usize, to: usize) -> usize {
    (to + PLACES - from) % PLACES
}

#[cfg(test)]
mod tests {
    use std::collections::HashMap;

    use super::*;

    /// Numbers by chance: one below the limit.
    fn draw(state: &mut u64, limit: u64) -> u64 {
        *state = state.wrapping_mul(6_364_136_223_846_793_005).wrapping_add(1_442_695_040_888_963_407);
        (*state >> 33) % limit
    }

    fn assert_same(instances: &Instances, wanted: &HashMap<Key, States>, key: Key) {
        let found = instances.find(key).map(|place| instances.states(place));
        assert_eq!(found, wanted.get(&key).copied(), "{key}");
        assert_eq!(instances.are_full(), wanted.len() == MOST_INSTANCES);
    }

    #[test]
    fn instances_come_and_go_as_in_a_map() {
        let (mut instances, mut wanted, mut state) = (Instances::new(), HashMap::new(), 1);
        for step in 0..400_000 {
            let key = key_of(draw(&mut state, 256) as usize, draw(&mut state, 8));
            let states = draw(&mut state, 255) as States;
            // now it fills up, and now it empties
            let filling = (step / 20_000) % 2 == 0;
            match instances.find(key) {
                Some(place) if filling => instances.change(place, states),
                Some(place) => instances.remove(place),
                None if instances.are_full() => continue,
                None => instances.add(key, states),
            }
            match wanted.get_mut(&key) {
                Some(kept) if filling => *kept = states,
                Some(_) => drop(wanted.remove(&key)),
                None => drop(wanted.insert(key, states)),
            }
            assert_same(&instances, &wanted, key);
        }
    }

    #[test]
    fn all_others_are_found_after_each_removal() {
        let (mut instances, mut wanted, mut state) = (Instances::new(), HashMap::new(), 2);
        while !instances.are_full() {
            let key = key_of(draw(&mut state, 256) as usize, draw(&mut state, 1 << 32));
            if wanted.insert(key, 7).is_none() {
                instances.add(key, 7);
            }
        }
        let keys: Vec<Key> = wanted.keys().copied().collect();
        for key in &keys {
            let place = instances.find(*key).expect("it was added");
            instances.remove(place);
            wanted.remove(key);
            keys.iter().for_each(|&other| assert_same(&instances, &wanted, other));
        }
        assert!(instances.places.iter().all(|&entry| entry == FREE));
    }
}
