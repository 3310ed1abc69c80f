//! The picture: a panel for each order, true sums to the right, relative errors upwards, both on
//! log scales, and the proved bound as a line.

use std::collections::BTreeSet;

use draw::shapes::SITE;

use super::observe::{Observed, BOUND};
use super::orders::{Kind, Order, KINDS};
use super::table::{percent, Share};

/// For three rows of three panels.
const SIZE: (u32, u32) = (1254, 1110);
/// The corner of the first panel.
const ORIGIN: (usize, usize) = (96, 186);
/// From one panel's corner to the next one's: the panel and its labels beside, above and below.
const STRIDE: (usize, usize) = (400, 322);
const WIDTH: f64 = 310.0;
const HEIGHT: f64 = 190.0;
/// The rows below the log scale, where exact answers lie, from their tops: those without a proof, then
/// those that are proved to be exact.
const EXACT_ROW: f64 = 196.0;
const PROVED_ROW: f64 = 214.0;
const ROW: f64 = 16.0;
const PANEL: f64 = PROVED_ROW + ROW;

/// Sums from 10^2 on and errors from 10^-1 down, each a tenth or ten times of the one before.
const SUM_MARKS: [&str; 6] = ["≤ 10²", "10³", "10⁴", "10⁵", "10⁶", "10⁷"];
const ERROR_MARKS: [&str; 6] = ["10 %", "1 %", "0.1 %", "0.01 %", "0.001 %", "0.0001 %"];

const BOUND_STROKE: &str = "stroke=\"#b00020\" stroke-width=\"1.6\" stroke-dasharray=\"7 4\"";
const WORST: &str = "r=\"5\" fill=\"none\" stroke=\"#222\" stroke-width=\"1.5\"";
const EXACT_COLOUR: &str = "#eee";
const PROVED_COLOUR: &str = "#d4d4d4";

/// The whole picture as SVG.
pub fn svg(observed: &[(Order, Observed)]) -> String {
    let panels = observed.iter().enumerate().map(|(number, (order, seen))| {
        let (column, row) = (number % 3, number / 3);
        let (x, y) = (ORIGIN.0 + column * STRIDE.0, ORIGIN.1 + row * STRIDE.1);
        let (axes, panel) = (axes(), panel(order, seen));
        format!("<g transform=\"translate({x} {y})\">\n{axes}{panel}</g>\n")
    });
    let (heading, legend, panels) = (heading(observed), legend(), panels.collect::<String>());
    let (width, height) = SIZE;
    format!(
        "<svg xmlns=\"http://www.w3.org/2000/svg\" viewBox=\"0 0 {width} {height}\" \
         font-family=\"sans-serif\" font-size=\"11\" fill=\"#222\">\n\
         <rect width=\"{width}\" height=\"{height}\" fill=\"#fff\"/>\n\
         {heading}{legend}{panels}</svg>\n"
    )
}

fn heading(observed: &[(Order, Observed)]) -> String {
    let [k, n, m, _] = SITE;
    let [exact, proved] = Share::of(observed.iter().map(|(_, seen)| seen)).in_percent();
    format!(
        "<text x=\"20\" y=\"36\" font-size=\"20\" font-weight=\"bold\">Relative error of the \
         answers, observed and proved</text>\n\
         <text x=\"20\" y=\"60\" font-size=\"13\">Books of the site shape, k = {k}, n = {n}, M = {m}. \
         Each panel is an order in which deliveries arrive, each dot one answered question or \
         several.</text>\n\
         <text x=\"20\" y=\"79\" font-size=\"13\">{exact} of all answers to windows with a delivery \
         are exact. {proved} are proved to be: at most n different stamps from the opening to its \
         interval's end.</text>\n"
    )
}

/// Two rows: what the colours are, and what else is drawn.
fn legend() -> String {
    let mut x = 20.0;
    let kinds = KINDS.map(|Kind(name, colour)| {
        let (dot, text) = (x + 4.0, x + 14.0);
        x = text + 7.2 * name.len() as f64 + 18.0;
        format!(
            "<circle cx=\"{dot:.0}\" cy=\"103\" r=\"4\" fill=\"{colour}\"/>\
             <text x=\"{text:.0}\" y=\"107\" font-size=\"13\">{name}</text>\n"
        )
    });
    let (kinds, bound) = (kinds.concat(), 100.0 * bound());
    format!(
        "{kinds}<path d=\"M20 125h34\" {BOUND_STROKE}/>\
         <text x=\"62\" y=\"129\" font-size=\"13\">proved bound, 2(k+1)/(n-k-1) = {bound} %</text>\
         <circle cx=\"353\" cy=\"125\" {WORST}/>\
         <text x=\"366\" y=\"129\" font-size=\"13\">greatest error of the order</text>\
         <rect x=\"580\" y=\"119\" width=\"30\" height=\"12\" fill=\"{EXACT_COLOUR}\"/>\
         <text x=\"618\" y=\"129\" font-size=\"13\">found exact, not proved</text>\
         <rect x=\"818\" y=\"119\" width=\"30\" height=\"12\" fill=\"{PROVED_COLOUR}\"/>\
         <text x=\"856\" y=\"129\" font-size=\"13\">proved exact</text>\n"
    )
}

fn bound() -> f64 {
    let (part, whole) = BOUND;
    part as f64 / whole as f64
}

/// From the left of a panel. Sums below 100, which are all exact in practice, stand at the left end.
fn sum_x(sum: f64) -> f64 {
    on_log_scale(sum, 2.0, 7.5) * WIDTH
}

/// From the top of a panel.
fn error_y(error: f64) -> f64 {
    HEIGHT - on_log_scale(error, -6.0, -0.5) * HEIGHT
}

/// Where a number lies between two powers of ten, as a part of the way; beyond an end it is placed at it.
fn on_log_scale(number: f64, low: f64, high: f64) -> f64 {
    (number.log10().clamp(low, high) - low) / (high - low)
}

fn axes() -> String {
    let rows =
        [(EXACT_ROW, EXACT_COLOUR, "found exact"), (PROVED_ROW, PROVED_COLOUR, "proved exact")];
    let rows = rows.map(|(top, colour, text)| {
        let label = label_beside(top + ROW / 2.0, text);
        format!("<rect y=\"{top}\" width=\"{WIDTH}\" height=\"{ROW}\" fill=\"{colour}\"/>{label}")
    });
    let errors = (1..).zip(ERROR_MARKS).map(|(power, text)| {
        let y = error_y(0.1f64.powi(power));
        let label = label_beside(y, text);
        format!("<path d=\"M0 {y:.1}h{WIDTH}\" stroke=\"#ddd\"/>{label}")
    });
    let sums = (2..).zip(SUM_MARKS).map(|(power, text)| {
        let (x, y) = (sum_x(10f64.powi(power)), PANEL + 15.0);
        format!(
            "<path d=\"M{x:.1} 0v{PANEL}\" stroke=\"#ddd\"/>\
             <text x=\"{x:.1}\" y=\"{y:.1}\" text-anchor=\"middle\">{text}</text>\n"
        )
    });
    let marks: String = rows.into_iter().chain(errors).chain(sums).collect();
    let (x, below, y) = (WIDTH / 2.0, PANEL + 32.0, HEIGHT / 2.0);
    format!(
        "{marks}<rect width=\"{WIDTH}\" height=\"{PANEL}\" fill=\"none\" stroke=\"#888\"/>\
         <text x=\"{x:.1}\" y=\"{below:.1}\" text-anchor=\"middle\">true sum, decilitres</text>\
         <text transform=\"translate(-68 {y:.1}) rotate(-90)\" text-anchor=\"middle\">relative \
         error</text>\n"
    )
}

/// A label to the left of a panel, its letters around this height.
fn label_beside(y: f64, text: &str) -> String {
    let y = y + 4.0;
    format!("<text x=\"-6\" y=\"{y:.1}\" text-anchor=\"end\">{text}</text>\n")
}

fn panel(order: &Order, observed: &Observed) -> String {
    let (name, colour, bound) = (order.name, order.kind.1, error_y(bound()));
    let (dots, worst) = (dots(observed), observed.worst());
    let error = worst.relative_error();
    let (x, y, greatest) = (sum_x(worst.truth as f64), error_y(error), percent(error));
    let circle = match error > 0.0 {
        true => format!("<circle cx=\"{x:.1}\" cy=\"{y:.1}\" {WORST}/>\n"),
        false => String::new(),
    };
    let [exact, proved] = Share::of([observed]).in_percent();
    let figures = format!("greatest error {greatest}, {exact} exact, {proved} proved exact");
    format!(
        "<path d=\"{dots}\" stroke=\"{colour}\" stroke-width=\"2.4\" \
         stroke-linecap=\"round\" fill=\"none\"/>\n\
         <path d=\"M0 {bound:.1}h{WIDTH}\" {BOUND_STROKE}/>\n{circle}\
         <text y=\"-25\" font-size=\"13\" font-weight=\"bold\">{name}</text>\
         <text y=\"-9\">{figures}</text>\n"
    )
}

/// One mark for each pixel that some answer lies on.
fn dots(observed: &Observed) -> String {
    let pixels = observed.telling().map(|observation| {
        let y = match (observation.is_exact(), observation.proved_exact) {
            (false, _) => error_y(observation.relative_error()),
            (true, false) => EXACT_ROW + ROW / 2.0,
            (true, true) => PROVED_ROW + ROW / 2.0,
        };
        let x = sum_x(observation.truth as f64);
        (x.round() as i64, y.round() as i64)
    });
    let pixels: BTreeSet<(i64, i64)> = pixels.collect();
    pixels.iter().map(|(x, y)| format!("M{x} {y}h0")).collect()
}
