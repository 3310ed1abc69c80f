//! Runs an order through the static library and the exact ledger.

use compare::implementation::{Archive, Implementation};
use draw::calls::call_of;
use draw::shapes::{within, SITE};
use reference::calls::{Answer, Call};
use reference::ledger::Ledger;

use super::orders::Order;

/// Ticks of an interval.
pub const TICKS: u32 = 1 << SITE[0];
/// Decilitres that an interval keeps.
pub const CAPACITY: u64 = 1 << SITE[2];
/// The proved bound is this part of the true sum: 2(k+1) to n-k-1.
pub const BOUND: (u64, u64) = (2 * (SITE[0] as u64 + 1), (SITE[1] - SITE[0] - 1) as u64);

/// One answered question, the ledger's sum and the book's.
#[derive(Clone, Copy, Debug, PartialEq, Eq)]
pub struct Observation {
    pub window: u32,
    pub truth: u64,
    pub answer: u64,
    /// Whether it is proved to be exact (document 02, request Seven).
    pub proved_exact: bool,
}

impl Observation {
    pub fn is_exact(self) -> bool {
        self.answer == self.truth
    }

    /// The error as a part of the true sum; a wrong answer about nothing is infinitely wrong.
    pub fn relative_error(self) -> f64 {
        match (self.truth, self.truth.abs_diff(self.answer)) {
            (_, 0) => 0.0,
            (0, _) => f64::INFINITY,
            (truth, error) => error as f64 / truth as f64,
        }
    }

    /// What was proved of the answer and does not hold, if anything.
    pub fn fault(self) -> Option<&'static str> {
        let (part, whole) = BOUND;
        if self.truth.abs_diff(self.answer) * whole > part * self.truth {
            Some("beyond the bound")
        } else if self.proved_exact && !self.is_exact() {
            Some("off, but proved exact")
        } else {
            None
        }
    }
}

/// What an order showed: how many deliveries were accepted, and every answer.
#[derive(Default)]
pub struct Observed {
    pub deliveries: u64,
    pub observations: Vec<Observation>,
}

impl Observed {
    /// The answer with the greatest relative error.
    pub fn worst(&self) -> Observation {
        let observations = self.observations.iter().copied();
        let worst = observations.max_by(|a, b| a.relative_error().total_cmp(&b.relative_error()));
        worst.expect("every order asks")
    }

    /// The first answer of which something proved does not hold, and what.
    pub fn fault(&self) -> Option<(Observation, &'static str)> {
        let mut observations = self.observations.iter();
        observations.find_map(|o| Some((*o, o.fault()?)))
    }

    /// The answers to windows that have a delivery. The others are 0, which says nothing.
    pub fn telling(&self) -> impl Iterator<Item = &Observation> {
        self.observations.iter().filter(|o| o.truth > 0)
    }
}

/// Each call on each book. Library and ledger must accept them all, because the orders hold nothing that is
/// refused; the error names a call that one of them refuses.
pub fn observe(order: &Order) -> Result<Observed, String> {
    let mut observed = Observed::default();
    for calls in &order.books {
        let shape = within(SITE);
        let (mut book, mut ledger) = (vec![0; shape.book_length()], Ledger::new(shape));
        for &call in [call_of(SITE)].iter().chain(calls) {
            let found = Archive.perform(&mut book, call);
            let expected = ledger.perform(call, book.len());
            match (call, found, expected) {
                (
                    Call::Query { grade, window },
                    Ok(Answer::Sum(answer)),
                    Ok(Answer::Sum(truth)),
                ) => observed.observations.push(Observation {
                    window,
                    truth,
                    answer,
                    proved_exact: ledger.promises_exact(grade, window),
                }),
                (Call::Delivery { .. }, Ok(_), Ok(_)) => observed.deliveries += 1,
                (_, Ok(_), Ok(_)) => {}
                _ => return Err(format!("{call:?}: {found:?}, ledger {expected:?}")),
            }
        }
    }
    Ok(observed)
}
