//! The orders, what is observed, the table and the picture.

use super::observe::{observe, Observation, Observed, BOUND, TICKS};
use super::orders::{delivery, question, Order, KINDS, ORDERS};
use super::{picture, table};
use draw::shapes::SITE;
use reference::calls::Call;

fn observation((truth, answer, proved_exact): (u64, u64, bool)) -> Observation {
    Observation { window: 60_000, truth, answer, proved_exact }
}

/// Four answers to windows with a delivery: two that are exact, one of them proved to be, and two others.
fn observed() -> Observed {
    let (exact, off) = ((1_000, 1_000, false), (1_000_000, 1_030_000, false));
    let others = [(0, 0, true), (10, 10, true), (2_000_000, 1_999_999, false)];
    let observations = [&others[..2], &[exact, off], &others[2..]].concat();
    Observed { deliveries: 3, observations: observations.into_iter().map(observation).collect() }
}

fn order(kind: usize, calls: &[Call]) -> Order {
    Order::new("calm", KINDS[kind], vec![calls.to_vec()])
}

#[test]
fn what_was_proved_must_hold() {
    assert_eq!((BOUND, observed().fault()), ((42, 420), None));
    for (answer, fault) in [
        ((1000, 1100, false), None),
        ((1000, 899, false), Some("beyond the bound")),
        ((1000, 1101, true), Some("beyond the bound")),
        ((1000, 1001, true), Some("off, but proved exact")),
        ((0, 1, false), Some("beyond the bound")),
    ] {
        let mut observed = observed();
        observed.observations.insert(2, observation(answer));
        let expected = fault.map(|fault| (observation(answer), fault));
        assert_eq!(observed.fault(), expected);
    }
}

/// From the clock back, 442 stamps two ticks apart: one more than n.
#[test]
fn answers_that_are_proved_to_be_exact() {
    let (clock, n) = (TICKS - 1, SITE[1]);
    let asked = [(1, true), (2 * n, true), (2 * n + 1, false), (TICKS, false)];
    let mut calls = vec![Call::Clock { clock }];
    calls.extend((0..=n).map(|number| delivery(clock - 2 * number, 1)));
    calls.extend(asked.map(|(window, _)| question(window)));
    let observed = observe(&order(2, &calls)).expect("library and ledger agree");
    let found = observed.observations.iter();
    assert!(found.map(|o| (o.window, o.proved_exact)).eq(asked));
    assert_eq!((observed.fault(), observed.deliveries), (None, 442));
    let late = order(2, &[Call::Clock { clock: TICKS }, delivery(0, 1)]);
    let trouble = observe(&late).err().expect("a refusal");
    assert!(trouble.contains("Err(9)"), "{trouble}");
}

/// Library and ledger accept all of each order, and nothing proved of the answers fails; the aimed one comes
/// near the bound. Most show answers of every kind.
#[test]
fn orders_are_long_repeatable_and_accepted() {
    let kinds: [fn(&&Observation) -> bool; 3] = [
        |o| o.proved_exact && o.window > SITE[1],
        |o| !o.proved_exact && o.is_exact(),
        |o| !o.is_exact(),
    ];
    for (place, make) in ORDERS.into_iter().enumerate() {
        let order = make(3);
        assert!(order.books == make(3).books && order.books != make(2).books);
        let observed = observe(&order).expect("library and ledger agree");
        assert_eq!(observed.fault(), None, "{}", order.name);
        assert!(observed.deliveries > 10_000, "{}", order.name);
        let counts = kinds.map(|kind| observed.telling().filter(kind).count());
        assert!(place > 1 || counts.iter().min() >= Some(&20), "{counts:?}");
        let worst = observed.worst().relative_error();
        assert!(place < 8 || worst > 0.09, "{worst}");
    }
}

#[test]
fn the_table_names_the_worst_and_shares_out_what_was_exact_and_proved() {
    let words = |text: &str| text.split_whitespace().collect::<Vec<_>>().join(" ");
    let row = words(&table::row(&order(0, &[]), &observed()));
    let expected = "calm 3 4 2, 50 % 1, 25 % 3.00 % 60000 s, 1000000 dl";
    assert_eq!(row, expected);
    let mut exact = observed();
    exact.observations = vec![observation((7, 7, false))];
    let shares = table::shares(&[(order(0, &[]), observed()), (order(1, &[]), exact)]);
    let expected = "as a forecourt reports 4 2, 50 % 1, 25 % at random 1 1, 100 % 0, 0 % \
        by an unusual pattern 0 0, 0 % 0, 0 % aimed at the bound 0 0, 0 % 0, 0 % \
        all orders 5 3, 60 % 1, 20 % proved exact with a window above n: 1";
    assert_eq!(words(&shares), expected);
}

#[test]
fn the_picture_is_whole_and_each_point_lies_in_its_panel() {
    let svg = picture::svg(&ORDERS.map(|order| (order(1), observed())));
    for tag in ["svg", "g", "text"] {
        let opened = [" ", ">"].map(|end| svg.matches(&format!("<{tag}{end}")).count());
        let closed = svg.matches(&format!("</{tag}>")).count();
        assert_eq!(opened.iter().sum::<usize>(), closed, "{tag}");
    }
    assert!(!svg.contains("NaN") && !svg.contains("inf"));
    let panels: Vec<&str> = svg.split("<g ").skip(1).collect();
    assert_eq!(panels.len(), ORDERS.len());
    for panel in panels {
        assert!(panel.contains("greatest error 3.00 %, 50 % exact, 25 % proved exact"));
        // Two exact answers in their rows, two others above them.
        let starts = panel.split("h0").filter_map(|part| part.rsplit_once('M'));
        let dots = starts.take(4).filter_map(|(_, dot)| dot.split_once(' '));
        let dots = dots.map(|(x, y)| (x.parse().unwrap(), y.parse().unwrap()));
        let dots: Vec<(u32, u32)> = dots.collect();
        assert_eq!((dots.len(), dots[0].1, dots[1].1), (4, 222, 204));
        assert!(dots[2].1.max(dots[3].1) <= 190 && dots.iter().all(|dot| dot.0 <= 310));
    }
}
