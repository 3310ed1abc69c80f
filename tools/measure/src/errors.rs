//! Error in practice: arrival orders on the site shape, each answer beside the exact ledger's, and
//! a picture of what was observed against the proved bound.

mod observe;
mod orders;
mod picture;
mod table;
#[cfg(test)]
mod tests;

use std::ffi::OsStr;
use std::fs;
use std::process::ExitCode;

use observe::{observe, Observed};
use orders::{Order, ORDERS};

/// Prints the greatest error of each order, how many answers were exact and how many of them were proved
/// to be, and writes the picture.
pub fn run(path: &OsStr) -> ExitCode {
    let drawn = observe_all().and_then(|observed| {
        let written = fs::write(path, picture::svg(&observed));
        written.map_err(|error| format!("{}: {error}", path.display()))
    });
    match drawn {
        Ok(()) => ExitCode::SUCCESS,
        Err(trouble) => {
            eprintln!("{trouble}");
            ExitCode::FAILURE
        }
    }
}

fn observe_all() -> Result<Vec<(Order, Observed)>, String> {
    println!("{}", table::head());
    let mut all = Vec::new();
    for (seed, order) in (1..).zip(ORDERS) {
        let order = order(seed);
        let observed = observe(&order)?;
        println!("{}", table::row(&order, &observed));
        if let Some((observation, fault)) = observed.fault() {
            return Err(format!("{fault}: {}, {observation:?}", order.name));
        }
        all.push((order, observed));
    }
    println!("\n{}", table::shares(&all));
    Ok(all)
}
