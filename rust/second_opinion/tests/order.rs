//! M-102, the working order of the definitions: readings 33 to 39 of document
//! 02.

mod common;

use common::*;
use second_opinion::*;

/// The order of records whose clocks, 32 of them, are all named.
fn order(records: &[Record]) -> Result<Vec<usize>, Refusal> {
    definition_order(records, 32, 32)
}

/// c defined by a and b.
fn lub(c: u64, a: u64, b: u64) -> Record {
    definition(Kind::Lub, c, a, b, 1)
}

/// c defined by a alone.
fn await_2(c: u64, a: u64) -> Record {
    await_definition(c, 2, a, 1)
}

fn excludes(a: u64, b: u64) -> Record {
    relation(Kind::Excludes, a, b, 1)
}

fn empty() -> Record {
    record(Kind::Empty)
}

#[test]
fn no_records_have_an_empty_order() {
    assert_eq!(definition_order(&[], 0, 0), Ok(vec![]));
    assert_eq!(definition_order(&[], 0, 32), Ok(vec![]));
    assert_eq!(order(&[]), Ok(vec![]));
}

#[test]
fn reading_36_the_lowest_ready_record_is_taken_each_time() {
    // 1 rests on 2, and 3 is free.
    let records = [lub(2, 3, 0), lub(3, 0, 1), lub(4, 0, 1)];
    assert_eq!(order(&records), Ok(vec![2, 1, 3]));
    // 1 rests on 3 and 2 on 1; 4 is free, and no longer the lowest once 3 is
    // listed.
    let records = [lub(2, 4, 0), await_2(3, 2), lub(4, 0, 1), await_2(5, 0)];
    assert_eq!(order(&records), Ok(vec![3, 1, 2, 4]));
    // 1 rests on 2 and on 5, 2 on 4, and 3 and 4 and 5 are free.
    let records = [
        lub(2, 3, 6),
        lub(3, 0, 5),
        await_2(4, 0),
        lub(5, 0, 1),
        lub(6, 1, 0),
    ];
    assert_eq!(order(&records), Ok(vec![3, 4, 2, 5, 1]));
}

#[test]
fn definitions_that_rest_on_none_or_on_earlier_ones_keep_the_record_order() {
    let free = [lub(2, 0, 1), lub(3, 1, 0), await_2(4, 0)];
    assert_eq!(order(&free), Ok(vec![1, 2, 3]));
    let earlier = [lub(2, 0, 1), lub(3, 2, 0), lub(4, 3, 2)];
    assert_eq!(order(&earlier), Ok(vec![1, 2, 3]));
}

#[test]
fn every_form_waits_for_its_operands() {
    let forms = [
        Kind::Union,
        Kind::Inter,
        Kind::Lub,
        Kind::Glb,
        Kind::StrictlySampled,
        Kind::Sampled,
        Kind::Upto,
        Kind::Deferred,
    ];
    for kind in forms {
        let defining = |defined, first, second| Record {
            defined,
            first,
            second,
            ..record(kind)
        };
        let left = [defining(2, 3, 0), lub(3, 0, 1)];
        assert_eq!(order(&left), Ok(vec![2, 1]), "{kind:?}");
        let right = [defining(2, 0, 3), lub(3, 0, 1)];
        assert_eq!(order(&right), Ok(vec![2, 1]), "{kind:?}");
        let both = [defining(2, 3, 4), lub(3, 0, 1), defining(4, 0, 1)];
        assert_eq!(order(&both), Ok(vec![2, 3, 1]), "{kind:?}");
    }
    let waits = [await_2(2, 3), lub(3, 0, 1)];
    assert_eq!(order(&waits), Ok(vec![2, 1]));
}

#[test]
fn reading_34_relations_and_empty_records_keep_their_numbers_and_are_not_listed() {
    let records = [
        empty(),
        excludes(2, 3),
        lub(2, 3, 0),
        empty(),
        lub(3, 0, 1),
        excludes(0, 1),
    ];
    assert_eq!(order(&records), Ok(vec![5, 3]));
    assert_eq!(order(&[empty(), excludes(0, 1)]), Ok(vec![]));
    assert_eq!(definition_order(&[empty(); 64], 0, 0), Ok(vec![]));
    let relations = [
        Kind::Coincides,
        Kind::Excludes,
        Kind::SubClock,
        Kind::StrictlyPrecedes,
        Kind::Precedes,
    ];
    for kind in relations {
        let records = [relation(kind, 2, 3, 1), lub(2, 0, 1), lub(3, 0, 1)];
        assert_eq!(order(&records), Ok(vec![2, 3]), "{kind:?}");
    }
}

#[test]
fn reading_35_an_operand_without_definition_is_waited_for_by_none() {
    // Neither the relation nor the empty record defines clock 0, whatever
    // stands in the field.
    let relation = Record {
        defined: 0,
        ..excludes(2, 3)
    };
    let nothing = Record {
        defined: 0,
        first: 2,
        second: 3,
        ..empty()
    };
    let records = [lub(2, 0, 1), lub(3, 2, 0), relation, nothing];
    assert_eq!(order(&records), Ok(vec![1, 2]));
}

#[test]
fn reading_35_await_has_one_operand() {
    let waits = |second| Record {
        second,
        ..await_2(2, 0)
    };
    // 2 rests on 1; 1 would rest on 2, if its b were an operand.
    assert_eq!(order(&[waits(3), await_2(3, 2)]), Ok(vec![1, 2]));
    // It would wait for 2.
    assert_eq!(order(&[waits(3), lub(3, 0, 1)]), Ok(vec![1, 2]));
    // It would rest on itself, or on no clock at all.
    assert_eq!(order(&[waits(2)]), Ok(vec![1]));
    assert_eq!(order(&[waits(u64::MAX)]), Ok(vec![1]));
}

#[test]
fn reading_35_definitions_of_implicit_clocks_are_waited_for_too() {
    // Clocks 0 to 2 are named; 3 and 4 are not. 3 rests on 2, 2 on 1 and 5, and
    // 1 on 5.
    let records = [
        lub(3, 0, 2),
        lub(4, 3, 2),
        await_2(1, 4),
        excludes(4, 1),
        await_2(2, 0),
    ];
    assert_eq!(definition_order(&records, 3, 5), Ok(vec![5, 1, 2, 3]));
    let nested = table("a clockDef (b upto (await 2 c)) lub d\nb clockDef c sampled e");
    // 1 awaits, 2 is `upto`, 3 defines a and 4 defines b.
    let order = definition_order(&nested.records, nested.named, nested.clocks);
    assert_eq!(order, Ok(vec![1, 4, 2, 3]));
}

#[test]
fn reading_37_the_place_of_21_is_the_lowest_record_on_a_circle() {
    // 5 and 9 rest on each other, and 2 on 9.
    let mut records = [excludes(0, 1); 9];
    records[4] = await_2(5, 9);
    records[8] = await_2(9, 5);
    records[1] = await_2(2, 9);
    assert_eq!(order(&records), Err(refusal(21, 5)));
    // The same with definitions that can be listed, and one on which the circle
    // rests.
    records[0] = lub(10, 0, 1);
    records[2] = lub(11, 10, 0);
    records[4] = lub(5, 9, 11);
    assert_eq!(order(&records), Err(refusal(21, 5)));
}

#[test]
fn reading_37_of_several_circles_the_lowest_record_is_given() {
    let mut records = [empty(); 9];
    records[6] = await_2(7, 8);
    records[7] = await_2(8, 7);
    assert_eq!(order(&records), Err(refusal(21, 7)));
    records[2] = await_2(3, 9);
    records[8] = await_2(9, 3);
    assert_eq!(order(&records), Err(refusal(21, 3)));
    // A circle of three, met from above and from below.
    let records = [await_2(1, 3), await_2(2, 1), await_2(3, 2)];
    assert_eq!(order(&records), Err(refusal(21, 1)));
    let records = [await_2(1, 2), await_2(2, 3), await_2(3, 1)];
    assert_eq!(order(&records), Err(refusal(21, 1)));
    // Two circles with one record in common, 4, which is not the lowest.
    let records = [
        lub(1, 4, 0),
        lub(2, 4, 0),
        lub(3, 0, 5),
        lub(4, 2, 5),
        lub(5, 4, 0),
    ];
    assert_eq!(order(&records), Err(refusal(21, 2)));
}

#[test]
fn reading_37_a_record_between_two_circles_is_not_the_place() {
    // 4 and 5 rest on each other and 4 on 1; 1 rests on 2, and 2 and 3 on each
    // other.
    let records = [
        await_2(1, 2),
        await_2(2, 3),
        await_2(3, 2),
        lub(4, 5, 1),
        await_2(5, 4),
    ];
    assert_eq!(order(&records), Err(refusal(21, 2)));
    // The same with 1 and 2 between.
    let records = [
        await_2(1, 2),
        lub(2, 3, 0),
        await_2(3, 4),
        await_2(4, 3),
        lub(5, 6, 1),
        await_2(6, 5),
    ];
    assert_eq!(order(&records), Err(refusal(21, 3)));
}

#[test]
fn reading_38_circles_through_implicit_clocks_count() {
    // a, b and c are 0, 1 and 2; the implicit clock 3 rests on b, and b on it.
    let records = [lub(3, 1, 0), definition(Kind::Upto, 1, 3, 2, 2)];
    let answer = definition_order(&records, 3, 4);
    assert_eq!(answer, Err(refusal(21, 1)));
    // Over two lines: a rests on `(b lub c)`, which rests on b, and b rests on
    // a. The line above is on no circle.
    let text = "e clockDef a lub f\na clockDef (b lub c) upto d\nb clockDef await 2 a";
    let nested = table(text);
    let answer = definition_order(&nested.records, nested.named, nested.clocks);
    assert_eq!(answer, Err(refusal(21, 2)));
    // Reading 39: such a table still runs.
    let header: String = ["a", "b", "c", "d", "e", "f"]
        .map(|name| format!("$var event 1 {name} {name} $end "))
        .concat();
    let recording = format!("{header}$enddefinitions $end #1 1c #2");
    assert_eq!(verdict(text, recording), (Verdict::Accepted, 2));
}

#[test]
fn reading_38_a_circle_of_one_is_59() {
    assert_eq!(order(&[lub(2, 2, 0)]), Err(refusal(59, 1)));
    assert_eq!(order(&[empty(), await_2(2, 2)]), Err(refusal(59, 2)));
}

#[test]
fn reading_33_59_comes_before_21() {
    let circle = [await_2(1, 2), await_2(2, 1)];
    assert_eq!(order(&circle), Err(refusal(21, 1)));
    // The counts: place 0.
    assert_eq!(definition_order(&circle, 33, 33), Err(refusal(59, 0)));
    assert_eq!(definition_order(&circle, 4, 3), Err(refusal(59, 0)));
    assert_eq!(definition_order(&[], 1, 0), Err(refusal(59, 0)));
    // A record: a clock not below the count, a clock twice, an await number out
    // of range, a clock defined before, an implicit clock used before it is
    // defined.
    let with = |last| [circle[0], circle[1], last];
    assert_eq!(order(&with(excludes(0, 32))), Err(refusal(59, 3)));
    assert_eq!(order(&with(excludes(0, 0))), Err(refusal(59, 3)));
    let none = await_definition(3, 0, 0, 1);
    assert_eq!(order(&with(none)), Err(refusal(59, 3)));
    assert_eq!(order(&with(lub(1, 3, 4))), Err(refusal(59, 3)));
    assert_eq!(definition_order(&circle, 2, 3), Err(refusal(59, 1)));
    assert_eq!(definition_order(&circle, 3, 3), Err(refusal(21, 1)));
    // Too many records: place 65, unless a lower one is bad.
    let mut many = [empty(); 66];
    many[..2].copy_from_slice(&circle);
    assert_eq!(order(&many[..64]), Err(refusal(21, 1)));
    assert_eq!(order(&many[..65]), Err(refusal(59, 65)));
    many[65] = excludes(0, 0);
    assert_eq!(order(&many), Err(refusal(59, 65)));
    many[63] = excludes(0, 0);
    assert_eq!(order(&many), Err(refusal(59, 64)));
}

#[test]
fn sixty_four_records_have_an_order() {
    let mut records = [excludes(0, 1); 64];
    records[0] = lub(2, 3, 0);
    records[31] = lub(4, 0, 1);
    records[63] = lub(3, 0, 1);
    assert_eq!(order(&records), Ok(vec![32, 64, 1]));
    records[62] = await_2(5, 6);
    records[63] = await_2(6, 5);
    assert_eq!(order(&records), Err(refusal(21, 63)));
}

/// Each of so many definitions rests on the next: record n defines clock n - 1
/// by clock n.
fn backwards(count: u64) -> Vec<Record> {
    (0..count).map(|clock| await_2(clock, clock + 1)).collect()
}

#[test]
fn the_longest_chains() {
    // Of 32 clocks one must be free.
    let mut chain = backwards(31);
    assert_eq!(order(&chain), Ok((1..=31).rev().collect()));
    chain.reverse();
    assert_eq!(order(&chain), Ok((1..=31).collect()));
    // In each second of 64 slots.
    let apart: Vec<Record> = backwards(31)
        .into_iter()
        .flat_map(|record| [empty(), record])
        .collect();
    let even = (1..=31).rev().map(|number| 2 * number).collect();
    assert_eq!(order(&apart), Ok(even));
}

#[test]
fn thirty_two_definitions_always_have_a_circle() {
    // The last defines the clock that was free, by the clock of any record.
    for clock in 0..31 {
        let mut records = backwards(31);
        records.push(await_2(31, clock));
        let place = clock as usize + 1;
        assert_eq!(order(&records), Err(refusal(21, place)), "{clock}");
        // The other way round the circle begins with the last.
        records.reverse();
        assert_eq!(order(&records), Err(refusal(21, 1)), "{clock}");
    }
}

/// Random definitions over eight clocks, each defined at most once, relations
/// and empty records between.
fn random_records(numbers: &mut Numbers) -> Vec<Record> {
    let mut records = Vec::new();
    let mut defined = Vec::new();
    for _ in 0..1 + numbers.below(10) {
        let mut clocks: Vec<u64> = (0..8).collect();
        let mut draw = || clocks.swap_remove(numbers.below(clocks.len() as u64) as usize);
        let (c, a, b) = (draw(), draw(), draw());
        let record = match numbers.below(5) {
            0 => empty(),
            1 => excludes(a, b),
            _ if defined.contains(&c) => continue,
            2 => await_2(c, a),
            _ => lub(c, a, b),
        };
        if matches!(record.kind, Kind::Await | Kind::Lub) {
            defined.push(c);
        }
        records.push(record);
    }
    records
}

/// The request's sentence, held against random records: a circle is found here by
/// going from each record to all below it, over and over.
#[test]
fn random_orders_are_what_the_request_says() {
    let mut numbers = Numbers(105);
    let (mut listed, mut refused) = (0, 0);
    for _ in 0..5000 {
        let records = random_records(&mut numbers);
        let number = |clock: u64| {
            let defines = |r: &Record| matches!(r.kind, Kind::Await | Kind::Lub);
            let defined = |r: &Record| defines(r) && r.defined == clock;
            records.iter().position(defined).map(|index| index + 1)
        };
        let below = |place: usize| -> Vec<usize> {
            let record = &records[place - 1];
            let clocks: &[u64] = match record.kind {
                Kind::Await => &[record.first],
                Kind::Lub => &[record.first, record.second],
                _ => &[],
            };
            clocks.iter().filter_map(|&clock| number(clock)).collect()
        };
        let on_circle = |place: &usize| {
            let mut reached = below(*place);
            for _ in 0..records.len() {
                let further: Vec<usize> = reached.iter().flat_map(|&next| below(next)).collect();
                reached.extend(further);
                reached.sort();
                reached.dedup();
            }
            reached.contains(place)
        };
        let definitions: Vec<usize> = (0..8).filter_map(number).collect();
        match (
            definitions.iter().copied().filter(on_circle).min(),
            order(&records),
        ) {
            (Some(place), answer) => {
                refused += 1;
                assert_eq!(answer, Err(refusal(21, place)), "{records:?}");
            }
            (None, answer) => {
                listed += 1;
                let order = answer.expect("no circle");
                assert_eq!(order.len(), definitions.len(), "{records:?}");
                for (at, &place) in order.iter().enumerate() {
                    let waits = |place: &usize| !order[..at].contains(place);
                    let ready = |place: &&usize| waits(place) && !below(**place).iter().any(waits);
                    let lowest = definitions.iter().filter(ready).min();
                    assert_eq!(Some(&place), lowest, "{records:?}");
                }
            }
        }
    }
    assert!(listed > 1000 && refused > 1000, "{listed} {refused}");
}
