//! A process or a runnable of a long run. It counts its entries in lists of its
//! own, apart from the reader, which asks each instance that it has seen.

use super::random::Random;

/// An instance that has an entry.
pub struct Instance {
    pub number: u32,
    pub state: &'static str,
    /// Whether it was activated in this trace, or started if it is a runnable.
    pub activated: bool,
}

pub struct Runner {
    pub name: String,
    pub type_word: &'static str,
    pub first: Option<u32>,
    pub last: Option<u32>,
    /// Those that have an entry: living ones, and old ones for ever.
    pub kept: Vec<Instance>,
    /// Those that gave their entry back, and limits, which never had one.
    pub ended: Vec<u32>,
    /// Old instances come in steps, so that numbers between them stay unseen.
    next_old: u32,
    step: u32,
    /// The first activation bears this number, or one above all seen.
    begins: u32,
}

/// Below these a few, many or hardly any old instances have room; after the
/// last two there are no next numbers soon.
const BEGINNINGS: [&u32; 8] = [&0, &1, &5, &700, &3_000, &3_000, &(u32::MAX - 300), &(u32::MAX - 2)];

impl Runner {
    pub fn new(random: &mut Random, name: String, type_word: &'static str) -> Runner {
        let step = *random.pick(&[&1, &1, &2, &3]);
        let next_old = if random.chance(20) { 0 } else { step };
        let begins = *random.pick(&BEGINNINGS);
        Runner { name, type_word, first: None, last: None, kept: Vec::new(), ended: Vec::new(), next_old, step, begins }
    }

    /// One whose numbers don't run out.
    pub fn endless(random: &mut Random, name: String, type_word: &'static str) -> Runner {
        let begins = *random.pick(&[&0, &1, &700, &3_000]);
        Runner { begins, ..Runner::new(random, name, type_word) }
    }

    pub fn is_runnable(&self) -> bool {
        self.type_word == "R"
    }

    pub fn place_of(&self, number: u32) -> Option<usize> {
        self.kept.iter().position(|instance| instance.number == number)
    }

    /// The number of the next activation, if there is one.
    pub fn next(&self) -> Option<u32> {
        match self.last {
            Some(last) => last.checked_add(1),
            None => Some(self.next_old.max(self.begins)),
        }
    }

    pub fn count_up(&mut self, number: u32) {
        self.first.get_or_insert(number);
        self.last = Some(number);
    }

    /// The number of the next old instance, if there is one.
    pub fn next_old(&self) -> Option<u32> {
        Some(self.next_old).filter(|&number| self.first.map_or(true, |first| number < first))
    }

    pub fn keep_old(&mut self, number: u32, state: &'static str) {
        self.kept.push(Instance { number, state, activated: false });
        self.next_old = number + self.step;
    }

    /// Whether absent means that it ended or was never activated.
    pub fn is_absent(&self, number: u32) -> bool {
        self.first.is_some_and(|first| first <= number) && self.place_of(number).is_none()
    }

    /// A number that isn't seen and can't be activated any more, though an old
    /// instance may bear it: below the first activation, or below one seen.
    pub fn unseen_below(&self, random: &mut Random) -> Option<u32> {
        let highest = self.kept.iter().map(|instance| instance.number).max();
        let bound = self.first.or(highest)?;
        let drawn = [0, self.next_old.saturating_sub(1), self.next_old, bound.saturating_sub(1)];
        any_that(random, &drawn, |number| number < bound && self.place_of(number).is_none())
    }

    /// A number at or above the first activation that has no entry and isn't
    /// the next: one that ended, or one that was never activated.
    pub fn absent_number(&self, random: &mut Random) -> Option<u32> {
        let last = self.last?;
        let ended = if self.ended.is_empty() { last } else { self.ended[random.below(self.ended.len())] };
        let drawn = [ended, ended, last, last.saturating_add(2), u32::MAX];
        any_that(random, &drawn, |number| self.is_absent(number) && self.next() != Some(number))
    }
}

fn any_that(random: &mut Random, numbers: &[u32], holds: impl Fn(u32) -> bool) -> Option<u32> {
    let fit: Vec<u32> = numbers.iter().copied().filter(|&number| holds(number)).collect();
    (!fit.is_empty()).then(|| fit[random.below(fit.len())])
}
