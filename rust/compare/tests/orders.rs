//! The random questions for a working order have every shape that matters.

mod common;

use common::{count, Seen};
use compare::case::{Answer, Case};
use compare::generate::{self, Group};
use compare::monitors::{defines, operands, second};
use compare::random::Random;
use second_opinion::{Record, Refusal};

/// The records of a question, and by record the set of those that define its operands and of all to
/// which chains of operands lead from it. Bit n of a set is the record at index n.
struct Shape<'a> {
    records: &'a [Record],
    below: Vec<u64>,
    led_to: Vec<u64>,
}

impl Shape<'_> {
    fn of(records: &[Record]) -> Shape<'_> {
        let set = |record: &Record| {
            let used = operands(record);
            let is_below = |other: &Record| defines(other.kind) && used.contains(&other.defined);
            let places = (0..records.len()).filter(|place| is_below(&records[*place]));
            places.fold(0, |set, place| set | 1 << place)
        };
        let below: Vec<u64> = records.iter().map(set).collect();
        let mut led_to = below.clone();
        for middle in 0..records.len() {
            for from in 0..records.len() {
                if led_to[from] >> middle & 1 == 1 {
                    led_to[from] |= led_to[middle];
                }
            }
        }
        Shape {
            records,
            below,
            led_to,
        }
    }

    /// The indexes of the definitions that have a property.
    fn definitions(&self, has: impl Fn(usize) -> bool) -> Vec<usize> {
        (0..self.records.len())
            .filter(|place| defines(self.records[*place].kind) && has(*place))
            .collect()
    }

    fn leads(&self, from: usize, to: usize) -> bool {
        self.led_to[from] >> to & 1 == 1
    }

    fn on_circle(&self, place: usize) -> bool {
        self.leads(place, place)
    }

    /// The records on circles with the one at a place.
    fn circle(&self, place: usize) -> Vec<usize> {
        self.definitions(|other| self.leads(place, other) && self.leads(other, place))
    }

    /// Whether records rest, of each other, on one alone.
    fn is_plain(&self, circle: &[usize]) -> bool {
        let set = circle.iter().fold(0, |set, place| set | 1 << place);
        let among = |place: &usize| (self.below[*place] & set).count_ones();
        circle.iter().all(|place| among(place) == 1)
    }

    /// Whether the records, listed by numbers, rest each on the one before.
    fn is_chain(&self, list: &[usize]) -> bool {
        list.windows(2)
            .all(|two| self.below[two[1] - 1] >> (two[0] - 1) & 1 == 1)
    }
}

/// Of a question with a circle, where the lowest record on one is at `lowest`.
fn count_circles(seen: &mut Seen, shape: &Shape, named: u64, lowest: usize) {
    let on = shape.definitions(|place| shape.on_circle(place));
    let mut circles: Vec<_> = on.iter().map(|place| shape.circle(*place)).collect();
    circles.sort();
    circles.dedup();
    for length in 2..=10 {
        let is_there = |circle: &Vec<usize>| circle.len() == length && shape.is_plain(circle);
        let words = format!("circle of {length}");
        count(seen, &words, circles.iter().any(is_there));
    }
    count(
        seen,
        "crossed circles",
        !circles.iter().all(|c| shape.is_plain(c)),
    );
    count(seen, "two circles", circles.len() == 2);
    count(seen, "more circles", circles.len() > 2);
    let into = |place: usize| on.iter().any(|circle| shape.leads(place, *circle));
    let out = |place: usize| on.iter().any(|circle| shape.leads(*circle, place));
    let is_implicit = |place: &usize| shape.records[*place].defined >= named;
    count(
        seen,
        "circle through an implicit clock",
        on.iter().any(is_implicit),
    );
    for (words, into_one, out_of_one) in [
        ("leads into a circle", true, false),
        ("leads out of a circle", false, true),
        ("between circles", true, true),
        ("beside a circle", false, false),
    ] {
        let beside = shape.definitions(|place| {
            !shape.on_circle(place) && (into(place), out(place)) == (into_one, out_of_one)
        });
        let lower = beside.iter().any(|place| *place < lowest);
        count(seen, words, !beside.is_empty());
        count(seen, &format!("{words}, lower"), lower);
    }
}

/// Of a question that has a list.
fn count_list(seen: &mut Seen, shape: &Shape, named: u64, list: &[usize]) {
    let chain = list.len() >= 10 && shape.is_chain(list);
    let backwards = list.windows(2).all(|two| two[0] > two[1]);
    count(seen, "long chain forwards", chain && list.is_sorted());
    count(seen, "long chain backwards", chain && backwards);
    count(
        seen,
        "long chain otherwise",
        chain && !list.is_sorted() && !backwards,
    );
    count(seen, "31 listed", list.len() == 31);
    count(
        seen,
        "none rests on another",
        shape.below.iter().all(|set| *set == 0),
    );
    count(seen, "records between", list.len() < shape.records.len());
    let is_implicit = |number: &usize| shape.records[number - 1].defined >= named;
    count(seen, "implicit clocks listed", list.iter().any(is_implicit));
}

#[test]
fn orders_of_every_shape_come_up() {
    let mut seen = Seen::new();
    for pair in 0..40_000 {
        let case = generate::of(&mut Random::of_pair(17, pair), Group::Order);
        let Case::Order { records, clocks } = &case else {
            panic!("{case}")
        };
        let named = u64::from(clocks.named);
        match second(&case) {
            Answer::Order(Err(Refusal { number: 59, place })) => {
                count(&mut seen, &format!("59 at {place}"), true);
                continue;
            }
            Answer::Order(Err(Refusal { place, .. })) => {
                let shape = Shape::of(records);
                count_circles(&mut seen, &shape, named, place as usize - 1);
                let definitions = shape.definitions(|_| true).len();
                count(&mut seen, "32 definitions", definitions == 32);
                count(&mut seen, "64 records with a circle", records.len() == 64);
            }
            Answer::Order(Ok(list)) => {
                count_list(&mut seen, &Shape::of(records), named, &list);
                count(&mut seen, "64 records listed", records.len() == 64);
            }
            answer => panic!("{answer:?}"),
        }
        count(&mut seen, "32 clocks", clocks.count == 32);
    }
    for place in 0..=65 {
        count(&mut seen, &format!("59 at {place}"), false);
    }
    assert!(seen.values().all(|times| *times > 0), "{seen:#?}");
}
