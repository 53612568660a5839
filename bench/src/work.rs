//! The work that is timed, done by each of three implementations, with results that have to be equal.

use crate::equal::forwarding::Tables;
use crate::equal::handover::Lender;
use crate::equal::weights::Language;
use crate::networks::{fresh, plain_matrix, plain_table, Named, Network, ONES};
use crate::plain;
use crate::proved;

#[derive(Clone, Copy, PartialEq, Eq, Debug)]
pub enum Work {
    Sweeps,
    Settle,
    Forward,
    Handover,
    Read,
}

impl Work {
    pub const ALL: [Work; 5] = [
        Work::Sweeps,
        Work::Settle,
        Work::Forward,
        Work::Handover,
        Work::Read,
    ];

    pub fn name(self) -> &'static str {
        match self {
            Work::Sweeps => "sweep",
            Work::Settle => "settle",
            Work::Forward => "forward",
            Work::Handover => "handover",
            Work::Read => "read",
        }
    }

    /// How many times one run does what is named.
    pub fn units(self, n: usize) -> usize {
        match self {
            Work::Sweeps => n - 1,
            Work::Settle => n,
            _ => 1,
        }
    }
}

/// One network in the shapes of the three implementations, with buffers to write.
pub struct Bench {
    work: Work,
    n: u32,
    m: u32,
    words: [u16; 9],
    equal: Language,
    plain: plain::Language,
    list: Vec<u32>,
    file: Vec<u8>,
    arcs: Vec<u32>,
    fresh: Vec<u32>,
    best: Vec<u32>,
    mapping: Vec<u32>,
    plain_arcs: plain::Matrix,
    plain_fresh: plain::Matrix,
    plain_best: plain::Matrix,
    plain_mapping: Vec<Vec<plain::Entry>>,
    written: Vec<u32>,
    table: Vec<u32>,
    plain_written: plain::Matrix,
}

impl Bench {
    pub fn new(work: Work, language: &Named, network: Network) -> Bench {
        let Network {
            n,
            m,
            arcs,
            mapping,
            file,
        } = network;
        let fresh = fresh(language, n);
        let mut best = fresh.clone();
        let settles: Vec<u32> = (256..256 + n as u32).collect();
        let words = language.words();
        let settled = proved::steps(&words, n as u32, &arcs, &mut best, &settles);
        assert_eq!(settled.value, n as u32, "the best matrix is settled");
        let rows = 0..n as u32;
        let list = match work {
            Work::Settle => settles,
            _ => (1..n).flat_map(|_| rows.clone()).collect(),
        };
        Bench {
            work,
            n: n as u32,
            m: m as u32,
            words,
            equal: language.equal(),
            plain: language.plain(),
            list,
            plain_arcs: plain_matrix(&arcs, n),
            plain_fresh: plain_matrix(&fresh, n),
            plain_best: plain_matrix(&best, n),
            plain_mapping: plain_table(&mapping, m),
            plain_written: plain_matrix(&fresh, n),
            written: vec![0; 1_024],
            table: vec![0; 2_560],
            file,
            arcs,
            fresh,
            best,
            mapping,
        }
    }

    fn square(&self) -> usize {
        self.arcs.len()
    }

    pub fn proved(&mut self) -> u32 {
        let square = self.square();
        match self.work {
            Work::Sweeps | Work::Settle => {
                let r = &mut self.written[..square];
                r.copy_from_slice(&self.fresh);
                proved::steps(&self.words, self.n, &self.arcs, r, &self.list).value
            }
            Work::Forward => {
                let f = &mut self.table[..self.mapping.len()];
                let (n, m) = (self.n, self.m);
                proved::forward(
                    &self.words,
                    n,
                    m,
                    3,
                    &self.arcs,
                    &self.best,
                    &self.mapping,
                    f,
                )
                .number
            }
            Work::Handover => {
                let (arcs, best) = (&self.arcs, &self.best);
                proved::handover(&self.words, self.n, arcs, &self.fresh, best, 0).value
            }
            Work::Read => {
                let mut problem = [0; 12];
                proved::read(&self.file, &mut self.written, &mut self.table, &mut problem);
                problem[0]
            }
        }
    }

    pub fn equal(&mut self) -> u32 {
        use crate::equal;
        let square = self.square();
        let network = equal::guards::network::Network {
            language: self.equal,
            n: self.n,
            arcs: &self.arcs,
        };
        match self.work {
            Work::Sweeps | Work::Settle => {
                let r = &mut self.written[..square];
                r.copy_from_slice(&self.fresh);
                equal::steps::steps(&network, r, &self.list).unwrap_or(0)
            }
            Work::Forward => {
                let f = &mut self.table[..self.mapping.len()];
                let tables = Tables {
                    network,
                    m: self.m,
                    mode: 3,
                    routes: &self.best,
                    mapping: &self.mapping,
                };
                u32::from(equal::forwarding::forward::forward(&tables, f).is_err())
            }
            Work::Handover => {
                let lender = equal::handover::lending::lender;
                match lender(&network, &self.fresh, &self.best, 0) {
                    Ok(Lender::Newer) => 2,
                    Ok(Lender::Standing) => 5,
                    Err(_) => 0,
                }
            }
            Work::Read => {
                let (arcs, mapping) = (&mut self.written, &mut self.table);
                let problem = equal::files::reading::read(&self.file, arcs, mapping);
                problem.map_or(0, |problem| problem.n)
            }
        }
    }

    pub fn plain(&mut self) -> u32 {
        let n = self.n;
        match self.work {
            Work::Sweeps => {
                self.plain_written.clone_from(&self.plain_fresh);
                for _ in 1..n {
                    self.plain.sweep(&self.plain_arcs, &mut self.plain_written);
                }
                n * (n - 1)
            }
            Work::Settle => {
                self.plain_written.clone_from(&self.plain_fresh);
                for j in 0..n as usize {
                    self.plain
                        .settle(&self.plain_arcs, &mut self.plain_written, j);
                }
                n
            }
            Work::Forward => {
                let f = self
                    .plain
                    .forward(&self.plain_arcs, &self.plain_best, &self.plain_mapping);
                u32::from(std::hint::black_box(f).is_none())
            }
            Work::Handover => {
                if self.plain.every_best(&self.plain_arcs, &self.plain_best) {
                    2
                } else {
                    5
                }
            }
            Work::Read => {
                let read = std::hint::black_box(plain::read(&self.file));
                if read.is_some() {
                    n
                } else {
                    0
                }
            }
        }
    }

    /// Every implementation gives the same answer, and the same words where it writes them.
    pub fn agree(&mut self) -> Result<(), String> {
        let proved = self.proved();
        let (matrix, table) = (self.written.clone(), self.table.clone());
        self.written.fill(ONES - 1);
        self.table.fill(ONES - 1);
        let equal = self.equal();
        let square = self.square();
        let words = match self.work {
            Work::Sweeps | Work::Settle => self.written[..square] == matrix[..square],
            Work::Forward => self.table[..self.mapping.len()] == table[..self.mapping.len()],
            Work::Handover => true,
            Work::Read => {
                self.written[..square] == matrix[..square]
                    && self.table[..self.mapping.len()] == table[..self.mapping.len()]
                    && self.written[..square] == self.arcs[..]
            }
        };
        let plain = self.plain();
        let matrices = match self.work {
            Work::Sweeps | Work::Settle => {
                self.plain_written == plain_matrix(&matrix[..square], self.n as usize)
            }
            Work::Forward => {
                let f = self
                    .plain
                    .forward(&self.plain_arcs, &self.plain_best, &self.plain_mapping);
                let m = self.m as usize;
                f == Some(plain_table(&table[..self.mapping.len()], m))
            }
            Work::Handover | Work::Read => true,
        };
        if proved == equal && proved == plain && words && matrices {
            return Ok(());
        }
        let name = self.work.name();
        Err(format!(
            "{name}, n {}: the three disagree ({proved}, {equal}, {plain})",
            self.n
        ))
    }
}
