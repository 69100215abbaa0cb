//! A process or a runnable of a world: what was told of its instances, and which
//! numbers may come next.

use super::random::Random;

#[derive(Clone)]
pub struct Entity {
    pub name: String,
    pub type_word: &'static str,
    /// Numbers of the first and of the last activation, which is an activate,
    /// a mtalimitexceeded or a runnable's start.
    pub first: Option<u32>,
    pub last: Option<u32>,
    pub instances: Vec<(u32, &'static str)>,
}

impl Entity {
    pub fn state_of(&self, number: u32) -> Option<&'static str> {
        self.instances.iter().find(|(known, _)| *known == number).map(|(_, state)| *state)
    }

    pub fn set_state(&mut self, number: u32, state: &'static str) {
        match self.instances.iter_mut().find(|(known, _)| *known == number) {
            Some(instance) => instance.1 = state,
            None => self.instances.push((number, state)),
        }
    }

    pub fn count_up(&mut self, number: u32) {
        self.first.get_or_insert(number);
        self.last = Some(number);
    }

    pub fn highest_seen(&self) -> Option<u32> {
        self.instances.iter().map(|(number, _)| *number).max()
    }

    /// Whether an activation may bear the number: a first one if it is above
    /// all seen, a later one if it is the next.
    pub fn may_be_next(&self, number: u32) -> bool {
        match self.last {
            Some(last) => last.checked_add(1) == Some(number),
            None => self.highest_seen().map_or(true, |highest| highest < number),
        }
    }

    /// Whether an instance that was never seen may have been activated before
    /// the trace began. The largest number is left to an activation, so that a
    /// first one can always come.
    pub fn may_be_old(&self, number: u32) -> bool {
        number < self.first.unwrap_or(u32::MAX)
    }

    /// Whether the number may come as a new one, by an activation or otherwise.
    pub fn may_be_new(&self, number: u32, activation: bool) -> bool {
        if activation {
            self.may_be_next(number)
        } else {
            self.may_be_old(number)
        }
    }

    /// A number that no instance bears yet, if the draw finds one.
    pub fn unused_number(&self, random: &mut Random) -> Option<u32> {
        let next = self.last.or(self.highest_seen()).map_or(0, |number| number.wrapping_add(1));
        let drawn = random.below(1000) as u32;
        let old = self.first.map_or(drawn, |first| first.saturating_sub(1));
        let number = *random.pick(&[&next, &next, &next, &old, &old, &0, &3, &7, &drawn, &(u32::MAX - 1), &u32::MAX]);
        self.state_of(number).is_none().then_some(number)
    }

    /// An unused number of an instance that may be old, if the draw finds one.
    pub fn old_number(&self, random: &mut Random) -> Option<u32> {
        self.unused_number(random).filter(|&number| self.may_be_old(number))
    }
}

pub fn new_entity(name: String, type_word: &'static str) -> Entity {
    Entity { name, type_word, first: None, last: None, instances: Vec::new() }
}
