//! The greatest error of each order, its exact answers and those that are proved to be exact, as text.

use draw::shapes::SITE;

use super::observe::Observed;
use super::orders::{Order, KINDS};

/// How many of some answers are exact, how many of those are proved to be, and how many of the proved ones
/// have a window above n. Answers to windows without a delivery, which are 0, do not count.
#[derive(Default)]
pub struct Share {
    exact: usize,
    proved: usize,
    wide: usize,
    answers: usize,
}

impl Share {
    /// The share of what some orders showed.
    pub fn of<'a>(observed: impl IntoIterator<Item = &'a Observed>) -> Share {
        let mut share = Share::default();
        for observation in observed.into_iter().flat_map(Observed::telling) {
            let is_wide = observation.window > SITE[1];
            share.answers += 1;
            share.exact += usize::from(observation.is_exact());
            share.proved += usize::from(observation.proved_exact);
            share.wide += usize::from(observation.proved_exact && is_wide);
        }
        share
    }

    /// The exact ones and the proved ones among all, in whole percent.
    pub fn in_percent(&self) -> [String; 2] {
        [self.exact, self.proved].map(|part| {
            let part = 100.0 * part as f64 / self.answers.max(1) as f64;
            format!("{part:.0} %")
        })
    }

    fn counts(&self) -> String {
        let [exact, proved] = self.in_percent();
        format!("{:>8} {:>7}, {exact:>5} {:>7}, {proved:>5}", self.answers, self.exact, self.proved)
    }
}

pub fn head() -> String {
    format!(
        "{:36} {:>10} {:>8} {:>14} {:>14} {:>15}  at window, true sum",
        "order", "deliveries", "answers", "exact", "proved exact", "greatest error"
    )
}

/// The row of an order.
pub fn row(order: &Order, observed: &Observed) -> String {
    let (counts, worst) = (Share::of([observed]).counts(), observed.worst());
    let start = format!("{:36} {:>10} {counts}", order.name, observed.deliveries);
    let error = percent(worst.relative_error());
    format!("{start} {error:>15}  {} s, {} dl", worst.window, worst.truth)
}

/// The shares of each kind of order and of all orders.
pub fn shares(all: &[(Order, Observed)]) -> String {
    let row = |name: &str, share: &Share| format!("{name:47} {}\n", share.counts());
    let of_kind = KINDS.map(|kind| {
        let chosen = all.iter().filter(|(order, _)| order.kind == kind);
        row(kind.0, &Share::of(chosen.map(|(_, observed)| observed)))
    });
    let in_all = Share::of(all.iter().map(|(_, observed)| observed));
    let (of_kind, of_all, wide) = (of_kind.concat(), row("all orders", &in_all), in_all.wide);
    format!("{of_kind}{of_all}proved exact with a window above n: {wide}\n")
}

/// A part of one, in percent with three figures.
pub fn percent(part: f64) -> String {
    let percent = 100.0 * part;
    let figures = if percent >= 1.0 { 2 } else { 3 };
    format!("{percent:.figures$} %")
}
