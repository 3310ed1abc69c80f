//! Markdown tables of what is timed side by side: the times, their ratios, the targets of some ratios, and
//! how far a second run moved them.

use std::borrow::Borrow;
use std::fmt::{self, Display, Formatter};

use super::timing::Times;

/// The ratios of a second run may differ by so much.
const STEADY: f64 = 0.15;

/// What is timed side by side in each row of a table.
pub struct Form {
    pub columns: &'static [&'static str],
    /// The columns of ratios: a name, and the places of the two.
    pub ratios: &'static [(&'static str, usize, usize)],
    /// Digits of a ratio after the point. Two would round one that misses a near target to the target.
    pub digits: usize,
}

/// The ratios of a row that have a target, by their places, and the most that each may be.
pub type Targets = &'static [(usize, f64)];

/// The name of a row, its targets, and its times, or the work that is to be timed.
pub type Row<T> = (String, Targets, T);

pub struct Table<T = Times> {
    title: String,
    head: &'static str,
    form: &'static Form,
    pub rows: Vec<Row<T>>,
}

impl<T> Table<T> {
    /// The title says what is timed, and the unit; the head what the first column says. Where it is empty there
    /// is no such column.
    pub fn new(title: String, head: &'static str, form: &'static Form, rows: Vec<Row<T>>) -> Self {
        Table { title, head, form, rows }
    }

    /// The same table with the times of its rows, which are taken from these.
    pub fn timed(self, times: &mut impl Iterator<Item = Times>) -> Table {
        let rows = self.rows.into_iter().zip(times);
        let rows = rows.map(|((name, targets, _), times)| (name, targets, times));
        Table::new(self.title, self.head, self.form, rows.collect())
    }
}

impl Table {
    /// A ratio of a row; nothing where one of the two was not timed.
    fn ratio(&self, (.., times): &Row<Times>, place: usize) -> Option<f64> {
        let (_, timed, other) = self.form.ratios[place];
        times.ratio(timed, other)
    }

    fn line<S: Borrow<str>>(&self, cells: &[S]) -> String {
        let skipped = usize::from(self.head.is_empty());
        format!("| {} |\n", cells[skipped..].join(" | "))
    }

    fn row(&self, row: &Row<Times>) -> String {
        let (name, _, times) = row;
        let times = (0..self.form.columns.len()).map(|place| (times.median_of(place), 2));
        let ratios = 0..self.form.ratios.len();
        let ratios = ratios.map(|place| (self.ratio(row, place), self.form.digits));
        let mut cells = vec![name.clone()];
        cells.extend(times.chain(ratios).map(|(number, digits)| match number {
            Some(number) => format!("{number:.digits$}"),
            None => "-".to_string(),
        }));
        self.line(&cells)
    }

    fn target(&self, row: &Row<Times>, (place, most): (usize, f64)) -> String {
        let measured = self.ratio(row, place).expect("a target is timed");
        let (name, ratio, digits) = (&row.0, self.form.ratios[place].0, self.form.digits);
        let verdict = verdict(measured <= most);
        format!("| {name}: {ratio} | {most} | {measured:.digits$} | {verdict} |\n")
    }
}

impl Display for Table {
    fn fmt(&self, f: &mut Formatter<'_>) -> fmt::Result {
        let mut heads = vec![self.head];
        heads.extend(self.form.columns);
        heads.extend(self.form.ratios.iter().map(|(name, ..)| name));
        let (head, rules) = (self.line(&heads), self.line(&vec!["---"; heads.len()]));
        let rows: String = self.rows.iter().map(|row| self.row(row)).collect();
        write!(f, "{}, medians:\n\n{head}{rules}{rows}", self.title)
    }
}

/// The targets of all tables.
pub fn targets(tables: &[Table]) -> String {
    let mut text = String::from("| target on the site shape | at most | measured | |\n");
    text += "| --- | --- | --- | --- |\n";
    for table in tables {
        for row in &table.rows {
            text.extend(row.1.iter().map(|target| table.target(row, *target)));
        }
    }
    text
}

/// How far the ratios of a second run are from those of the first. Those of tables with targets have to be
/// steady.
pub fn moved(first: &[Table], second: &[Table]) -> String {
    let mut text = String::from("Ratios of a second run against the first:\n\n");
    text += "| table | row | ratio | first | second | moved |\n";
    text += "| --- | --- | --- | --- | --- | --- |\n";
    let mut verdicts = String::new();
    for (number, (one, two)) in (1..).zip(first.iter().zip(second)) {
        let (mut most, digits): (f64, usize) = (0.0, one.form.digits);
        for (row, again) in one.rows.iter().zip(&two.rows) {
            for (place, (ratio, ..)) in one.form.ratios.iter().enumerate() {
                let ratios = one.ratio(row, place).zip(two.ratio(again, place));
                let Some((was, is)) = ratios else { continue };
                let by = is / was - 1.0;
                most = most.max(by.abs());
                text += &format!("| {number} | {} | {ratio} | {was:.digits$} | ", row.0);
                text += &format!("{is:.digits$} | {:+.1} % |\n", 100.0 * by);
            }
        }
        let (percent, limit, verdict) = (100.0 * most, 100.0 * STEADY, verdict(most <= STEADY));
        verdicts += &format!("The largest move of table {number} is {percent:.1} %");
        verdicts += &match one.rows.iter().any(|row| !row.1.is_empty()) {
            true => format!("; at most {limit} %: {verdict}.\n"),
            false => ".\n".to_string(),
        };
    }
    text + "\n" + &verdicts
}

fn verdict(met: bool) -> &'static str {
    if met {
        "met"
    } else {
        "missed"
    }
}

/// A number with a comma before each three digits.
pub fn thousands(number: usize) -> String {
    match number / 1000 {
        0 => number.to_string(),
        thousand => format!("{},{:03}", thousands(thousand), number % 1000),
    }
}

#[test]
fn verdicts_of_targets_and_of_a_second_run() {
    const FORM: Form = Form {
        columns: &["copy", "merge", "read"],
        ratios: &[("merge / copy", 1, 0), ("merge / read", 1, 2)],
        digits: 3,
    };
    let table = |merge: f64| {
        let times = Times::new([vec![], vec![2.0, merge]]);
        let row: Row<Times> = ("two days".to_string(), &[(0, 1.05)], times);
        Table::new("Days".to_string(), "", &FORM, vec![row])
    };
    // What is not timed has no figure.
    let row = "\n| 2.00 | 2.10 | - | 1.050 | - |\n";
    assert!(table(2.1).to_string().ends_with(row));
    for (merge, verdict) in [(2.1, "1.050 | met"), (2.104, "1.052 | missed")] {
        let row = format!("| two days: merge / copy | 1.05 | {verdict} |\n");
        assert!(targets(&[table(merge)]).ends_with(&row), "{verdict}");
    }
    for (merge, row, verdict) in [(2.2, "1.100 | +10.0", "met"), (1.6, "0.800 | -20.0", "missed")] {
        let said = moved(&[table(2.0)], &[table(merge)]);
        assert!(said.contains(&format!("| 1.000 | {row} % |\n")), "{said}");
        let end = format!("; at most 15 %: {verdict}.\n");
        assert!(said.ends_with(&end), "{said}");
    }
}
