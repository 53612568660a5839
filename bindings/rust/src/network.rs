//! A network, and the calls on it.

use crate::buffers::{Matrix, Table};
use crate::ffi;
use crate::language::Language;
use crate::numbers::{Mode, Node, Step};
use crate::refusals::{Call, Refusal};
use crate::weights::{Weight, WEIGHT_WORDS};

/// A language and the arcs of a network in it.
///
/// Every call checks all that it is given, in one order that `docs/REFUSALS.md` lists; a refused call changes nothing,
/// but for steps that were done before refusal 11.
///
/// ```
/// use tronglephu::{Component, Language, Matrix, Network, Node, Step, Weight};
///
/// let mut arcs = Matrix::without_routes(3);
/// arcs.set(Node(0), Node(1), Weight::from(2));
/// arcs.set(Node(0), Node(2), Weight::from(9));
/// arcs.set(Node(1), Node(2), Weight::from(3));
/// let network = Network::new(Language::of(&[Component::Dist]), arcs);
///
/// let mut routes = network.fresh()?;
/// network.steps(&mut routes, &Step::settle_all(3))?;
/// assert_eq!(routes.get(Node(0), Node(2)), Some(Weight::from(5)));
/// assert_eq!(network.next_hop(&routes, Node(0), Node(2))?, Some(Node(1)));
/// assert_eq!(network.first_not_best(&routes)?, None);
/// # Ok::<(), tronglephu::Refusal>(())
/// ```
#[derive(Clone, Debug, PartialEq, Eq)]
pub struct Network {
    language: Language,
    arcs: Matrix,
}

/// Which matrix lends at a handover.
#[derive(Clone, Copy, Debug, PartialEq, Eq, Hash)]
pub enum Lender {
    /// The new one: every entry of it is the best weight over paths that visit no node twice.
    Newer,
    /// The standing one, since the new one is not such.
    Standing,
}

/// A row that one of two matrices lends; nothing is copied.
#[derive(Clone, Copy, Debug, PartialEq, Eq)]
pub struct LentRow<'a> {
    lender: Lender,
    words: &'a [u32],
}

impl<'a> LentRow<'a> {
    /// Whose row it is.
    pub fn lender(&self) -> Lender {
        self.lender
    }

    /// The words of the row.
    pub fn words(&self) -> &'a [u32] {
        self.words
    }

    /// The weight to a node; `None` where there is no such node.
    pub fn get(&self, to: Node) -> Option<Weight> {
        let mut weights = self.words.chunks_exact(WEIGHT_WORDS);
        let words = weights.nth(to.0.into())?.try_into().ok()?;
        Some(Weight::from_words(words))
    }
}

/// A pair of nodes whose weight in a matrix is not the best.
#[derive(Clone, Copy, Debug, PartialEq, Eq)]
pub struct NotBest {
    /// The row.
    pub from: Node,
    /// The column.
    pub to: Node,
    /// What the matrix holds there, as it stands: it may be malformed.
    pub held: Weight,
    /// The best weight over paths that visit no node twice.
    pub best: Weight,
}

impl Network {
    /// The network of a language and arcs, which are not looked at before a call.
    pub fn new(language: Language, arcs: Matrix) -> Network {
        Network { language, arcs }
    }

    /// Its language.
    pub fn language(&self) -> &Language {
        &self.language
    }

    /// Its arcs, the matrix A.
    pub fn arcs(&self) -> &Matrix {
        &self.arcs
    }

    /// Its arcs, to be changed.
    pub fn arcs_mut(&mut self) -> &mut Matrix {
        &mut self.arcs
    }

    /// The number of its nodes.
    pub fn n(&self) -> u8 {
        self.arcs.n()
    }

    /// The fresh matrix: units on the diagonal and no route elsewhere.
    pub fn fresh(&self) -> Result<Matrix, Refusal> {
        let mut r = Matrix::without_routes(self.n());
        let numbers = self.language.numbers();
        let answer = ffi::fresh(numbers, self.n().into(), r.words_mut());
        Refusal::unless_done(Call::Fresh, answer)?;
        Ok(r)
    }

    /// Does the steps in order, from whatever the matrix holds, and gives their number.
    ///
    /// At most 4,096 steps are taken in a call. Refusal 11 is the only one that leaves a mark: the steps before its
    /// place are done. On a matrix reached from fresh with the same language and arcs it cannot occur.
    pub fn steps(&self, r: &mut Matrix, steps: &[Step]) -> Result<u32, Refusal> {
        let list: Vec<u32> = steps.iter().map(|step| step.number()).collect();
        let (numbers, a) = (self.language.numbers(), self.arcs.words());
        let answer = ffi::steps(numbers, self.n().into(), a, r.words_mut(), &list);
        Refusal::unless_done(Call::Steps, answer)
    }

    /// The matrix of best weights over paths that visit no node twice: fresh, and every column settled.
    pub fn settled(&self) -> Result<Matrix, Refusal> {
        let mut r = self.fresh()?;
        self.steps(&mut r, &Step::settle_all(self.n()))?;
        Ok(r)
    }

    /// Whether R = (A join R) best fresh. That is not enough for R to be the best: see [`Network::first_not_best`].
    pub fn equation(&self, r: &Matrix) -> Result<bool, Refusal> {
        let (numbers, a) = (self.language.numbers(), self.arcs.words());
        let answer = ffi::equation(numbers, self.n().into(), a, r.words());
        Ok(Refusal::unless_done(Call::Equation, answer)? == 1)
    }

    /// The forwarding table: F(i,d) is the best over k of R(i,k) applied to M(k,d). R must satisfy the equation (12).
    pub fn forward(&self, mode: Mode, r: &Matrix, mapping: &Table) -> Result<Table, Refusal> {
        let mut f = Table::empty(self.n(), mapping.m());
        let sizes = ffi::Sizes {
            n: self.n().into(),
            m: mapping.m().into(),
            mode: mode.number().into(),
        };
        let (numbers, a) = (self.language.numbers(), self.arcs.words());
        let answer = ffi::forward(numbers, sizes, a, r.words(), mapping.words(), f.words_mut());
        Refusal::unless_done(Call::Forward, answer)?;
        Ok(f)
    }

    /// The lowest node other than i whose arc gives the route from i to j its weight; none where i = j, where there is
    /// no route, and where no arc does.
    pub fn next_hop(&self, r: &Matrix, i: Node, j: Node) -> Result<Option<Node>, Refusal> {
        let (numbers, a) = (self.language.numbers(), self.arcs.words());
        let (i, j) = (i.0.into(), j.0.into());
        let answer = ffi::next_hop(numbers, self.n().into(), a, r.words(), i, j);
        let value = Refusal::unless_done(Call::NextHop, answer)?;
        // What is no node is 255, and a node is below n.
        Ok((value != ffi::NO_NODE).then_some(Node(value as u8)))
    }

    /// Which matrix lends row i: the new one exactly where every entry of it is the best weight over paths that visit no
    /// node twice, else the standing one. Neither matrix's entries are refused.
    pub fn handover(&self, standing: &Matrix, newer: &Matrix, i: Node) -> Result<Lender, Refusal> {
        let answer = ffi::handover(
            self.language.numbers(),
            self.n().into(),
            self.arcs.words(),
            standing.words(),
            newer.words(),
            i.0.into(),
        );
        let value = Refusal::unless_done(Call::Handover, answer)?;
        Ok(if value == ffi::NEWER {
            Lender::Newer
        } else {
            Lender::Standing
        })
    }

    /// Row i of the matrix that lends, lent and not copied.
    ///
    /// ```
    /// use tronglephu::{Component, Language, Lender, Matrix, Network, Node, Weight};
    ///
    /// let mut arcs = Matrix::without_routes(2);
    /// arcs.set(Node(0), Node(1), Weight::from(4));
    /// let mut network = Network::new(Language::of(&[Component::Dist]), arcs);
    /// let standing = network.settled()?;
    ///
    /// network.arcs_mut().set(Node(0), Node(1), Weight::from(6));
    /// let unfinished = network.fresh()?;
    /// let row = network.lent_row(&standing, &unfinished, Node(0))?;
    /// assert_eq!((row.lender(), row.get(Node(1))), (Lender::Standing, Some(Weight::from(4))));
    ///
    /// let finished = network.settled()?;
    /// let row = network.lent_row(&standing, &finished, Node(0))?;
    /// assert_eq!((row.lender(), row.get(Node(1))), (Lender::Newer, Some(Weight::from(6))));
    /// # Ok::<(), tronglephu::Refusal>(())
    /// ```
    pub fn lent_row<'a>(
        &self,
        standing: &'a Matrix,
        newer: &'a Matrix,
        i: Node,
    ) -> Result<LentRow<'a>, Refusal> {
        let lender = self.handover(standing, newer, i)?;
        let words = match lender {
            Lender::Newer => newer.row(i),
            Lender::Standing => standing.row(i),
        };
        Ok(LentRow { lender, words })
    }

    /// Why a new matrix does not lend: the first pair, by rows, that does not hold the best weight, with what it holds
    /// and the best. None exactly where the new matrix lends.
    ///
    /// ```
    /// use tronglephu::{Component, Language, Matrix, Network, Node, Weight};
    ///
    /// // two depots that lead to each other and nowhere else
    /// let mut arcs = Matrix::without_routes(3);
    /// arcs.set(Node(0), Node(1), Weight::from(10));
    /// arcs.set(Node(1), Node(0), Weight::from(10));
    /// let network = Network::new(Language::of(&[Component::Width(10)]), arcs);
    ///
    /// let mut ghost = network.settled()?;
    /// ghost.set(Node(0), Node(2), Weight::from(10));
    /// ghost.set(Node(1), Node(2), Weight::from(10));
    /// assert!(network.equation(&ghost)?);
    ///
    /// let fault = network.first_not_best(&ghost)?.expect("it is not the best");
    /// assert_eq!((fault.from, fault.to), (Node(0), Node(2)));
    /// assert_eq!((fault.held, fault.best), (Weight::from(10), Weight::NoRoute));
    /// # Ok::<(), tronglephu::Refusal>(())
    /// ```
    pub fn first_not_best(&self, new: &Matrix) -> Result<Option<NotBest>, Refusal> {
        if self.handover(new, new, Node(0))? == Lender::Newer {
            return Ok(None);
        }
        let best = self.settled()?;
        let mut pairs = new.entries().zip(best.entries());
        let fault = pairs.find(|((_, _, held), (_, _, best))| held != best);
        Ok(fault.map(|((from, to, held), (_, _, best))| NotBest {
            from,
            to,
            held,
            best,
        }))
    }
}
