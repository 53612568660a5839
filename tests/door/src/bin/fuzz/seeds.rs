//! The seeds of a run: the corpus, and the mutants whose answers were new.

use std::collections::BTreeMap;
use std::rc::Rc;

use compare::calls::Kind;
use door::requests::Request;
use reference::generator::Dice;

use crate::answers::Answer;
use crate::stored::KINDS;

/// A call with more nodes is slow in the independent implementation, and is chosen less often.
const SMALL: u32 = 8;

#[derive(Default)]
pub struct Seeds {
    all: BTreeMap<Kind, Vec<Rc<Request>>>,
    done: BTreeMap<Kind, Vec<Rc<Request>>>,
    count: usize,
}

impl Seeds {
    pub fn add(&mut self, request: Request, answer: Answer) {
        let request = Rc::new(request);
        if answer.number == 0 {
            let done = self.done.entry(answer.kind).or_default();
            done.push(Rc::clone(&request));
        }
        self.all.entry(answer.kind).or_default().push(request);
        self.count += 1;
    }

    pub fn count(&self) -> usize {
        self.count
    }

    /// A seed of any call, each as often; more often than not a done one, and seldom a large one.
    pub fn pick(&self, dice: &mut Dice) -> Rc<Request> {
        loop {
            let kind = dice.pick(&KINDS);
            let seeds = if dice.percent(60) {
                &self.done
            } else {
                &self.all
            };
            let of_kind = seeds.get(&kind).map_or(&[][..], Vec::as_slice);
            let Some(seed) = of_kind.get(dice.index(of_kind.len())) else {
                continue;
            };
            if seed.call.n <= SMALL || dice.percent(10) {
                return Rc::clone(seed);
            }
        }
    }
}
