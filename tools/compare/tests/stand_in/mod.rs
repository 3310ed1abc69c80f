//! Stand-ins for what is compared: the second program with one thing changed. Each is found by a usual run.

use compare::difference::What;
use compare::implementation::Implementation;
use compare::run::Comparison;
use reference::calls::{Call, Reply};

/// The second program, but this performs calls.
pub struct Performing<F>(pub F);

impl<F: Fn(&mut [u32], Call) -> Reply> Implementation for Performing<F> {
    fn perform(&self, book: &mut [u32], call: Call) -> Reply {
        (self.0)(book, call)
    }
}

/// A usual run has a trial in which this differs. A run ends with its first difference, so each trial is made by
/// itself.
pub fn assert_found(
    comparison: &Comparison,
    name: &str,
    stand_in: &dyn Implementation,
    what: What,
) {
    let mut trials = 0..comparison.usual;
    let found = trials.any(|number| {
        let result = comparison.run(stand_in, 1, number..number + 1);
        result.is_err_and(|failure| failure.difference.what == what)
    });
    assert!(found, "{name}: no {what:?} in {}", comparison.name);
}
