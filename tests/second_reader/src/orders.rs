//! Document 02, No. 12, "Shifts in any order": three sheets added in every order
//! and grouping, by the second reader or by a program.

use std::collections::BTreeSet;
use std::process::Output;

use crate::adding::run_on_sheets;
use crate::printing::{Run, ACCEPTED};
use crate::spread::number_of_sum;

pub type Triple = [Vec<u8>; 3];

/// Two of three sheets, by their places; the same two turned stand side by side.
pub const PAIRS: [[usize; 2]; 6] = [[0, 1], [1, 0], [0, 2], [2, 0], [1, 2], [2, 1]];

const ORDERS: [[usize; 3]; 6] = [[0, 1, 2], [1, 0, 2], [0, 2, 1], [2, 0, 1], [1, 2, 0], [2, 1, 0]];

/// What is printed for sheets.
pub trait Answer: Clone {
    /// The text of the sum, which is a sheet and can be added again. Nothing for
    /// a refusal.
    fn sum(&self) -> Option<&[u8]>;
}

impl Answer for Run {
    fn sum(&self) -> Option<&[u8]> {
        (self.status == ACCEPTED).then_some(self.printed.as_bytes())
    }
}

impl Answer for Output {
    fn sum(&self) -> Option<&[u8]> {
        self.status.success().then_some(&self.stdout)
    }
}

/// An answer and how it came about, such as `2 + (1 + 3)`.
pub struct Added<A> {
    pub how: String,
    pub answer: A,
}

/// The answers to three sheets.
pub struct Answers<A> {
    /// Two of them, as the list of pairs has them.
    pub pairs: Vec<Added<A>>,
    /// All three: in each order by one call, the first two and then the third,
    /// and the first to the sum of the last two.
    pub triples: Vec<Added<A>>,
}

impl Answers<Run> {
    /// The numbers that all three sheets are given; 0 for a sum.
    pub fn numbers(&self) -> BTreeSet<u8> {
        self.triples.iter().filter_map(|added| number_of_sum(&added.answer.printed)).collect()
    }
}

/// Every answer. The sum of two is added to a third sheet as it was printed; a
/// refusal of two is the answer to all three, since there is nothing to add.
pub fn add_in_every_order<A: Answer>(
    sheets: &Triple,
    mut add: impl FnMut(&[Vec<u8>]) -> Result<A, String>,
) -> Result<Answers<A>, String> {
    let mut pairs = Vec::new();
    for [one, other] in PAIRS {
        let answer = add(&[sheets[one].clone(), sheets[other].clone()])?;
        pairs.push(Added { how: format!("{} + {}", one + 1, other + 1), answer });
    }
    let mut triples = Vec::new();
    for order in ORDERS {
        let [one, two, three] = order.map(|place| place + 1);
        let [first, second, third] = order.map(|place| sheets[place].clone());
        let front = answer_to_pair(&pairs, [order[0], order[1]]);
        let back = answer_to_pair(&pairs, [order[1], order[2]]);
        triples.extend([
            Added { how: format!("{one} + {two} + {three}"), answer: add(&[first.clone(), second, third.clone()])? },
            Added { how: format!("({one} + {two}) + {three}"), answer: add_to_sum(front, |sum| add(&[sum, third]))? },
            Added { how: format!("{one} + ({two} + {three})"), answer: add_to_sum(back, |sum| add(&[first, sum]))? },
        ]);
    }
    Ok(Answers { pairs, triples })
}

fn answer_to_pair<A>(answers: &[Added<A>], pair: [usize; 2]) -> &A {
    let place = PAIRS.iter().position(|known| *known == pair).expect("one of the pairs");
    &answers[place].answer
}

fn add_to_sum<A: Answer>(inner: &A, add: impl FnOnce(Vec<u8>) -> Result<A, String>) -> Result<A, String> {
    inner.sum().map_or_else(|| Ok(inner.clone()), |sum| add(sum.to_vec()))
}

/// The second reader's answers.
pub fn run_in_every_order(sheets: &Triple) -> Answers<Run> {
    add_in_every_order(sheets, |some| Ok(run_on_sheets(some))).expect("an answer")
}
