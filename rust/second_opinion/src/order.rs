//! Which definition rests on which.
//!
//! "List the definition records so that each comes after the definitions of its
//! operands, taking the lowest ready record each time, numbered from 1" (M-102).

use std::mem;

use crate::step::check_records;
use crate::{Record, Refusal};

/// The definition records in working order, each by its number among all
/// records, from 1. `named` of the `clocks` clocks are named.
///
/// "21 exactly when no such order exists, its place the lowest record lying on a
/// circle; it … comes after 59" (M-102). No order exists exactly when there is a
/// circle: of the records on one none can come first, and where there is none,
/// some record that is not listed yet rests on listed ones alone.
pub fn definition_order(
    records: &[Record],
    named: u64,
    clocks: u64,
) -> Result<Vec<usize>, Refusal> {
    check_records(records, named, clocks)?;
    let rests_on: Vec<Vec<usize>> = records
        .iter()
        .map(|record| definitions_of_operands(records, record))
        .collect();
    let on_circle = |&index: &usize| {
        let mut seen = vec![false; records.len()];
        leads_to(&rests_on, index, index, &mut seen)
    };
    match (0..records.len()).find(on_circle) {
        Some(index) => Err(Refusal::new(21, index + 1)),
        None => Ok(working_order(records, &rests_on)),
    }
}

/// The indexes of the records that define an operand of the record; an operand
/// without definition has none.
fn definitions_of_operands(records: &[Record], record: &Record) -> Vec<usize> {
    let definition = |clock| {
        records
            .iter()
            .position(|other| other.defines() == Some(clock))
    };
    record.operands().filter_map(definition).collect()
}

/// Depth-first: whether a chain of operands leads from one record to another by
/// way of records not seen before.
fn leads_to(rests_on: &[Vec<usize>], from: usize, to: usize, seen: &mut [bool]) -> bool {
    rests_on[from].iter().any(|&next| {
        let fresh = !mem::replace(&mut seen[next], true);
        next == to || fresh && leads_to(rests_on, next, to, seen)
    })
}

/// The list where there is no circle: after each record listed, the next is
/// looked for again from the lowest.
fn working_order(records: &[Record], rests_on: &[Vec<usize>]) -> Vec<usize> {
    let mut order = Vec::new();
    while let Some(index) = lowest_ready(records, rests_on, &order) {
        order.push(index);
    }
    order.into_iter().map(|index| index + 1).collect()
}

/// The lowest definition that is not listed yet and rests on listed ones alone.
fn lowest_ready(records: &[Record], rests_on: &[Vec<usize>], listed: &[usize]) -> Option<usize> {
    let waits = |index: &usize| !listed.contains(index);
    (0..records.len())
        .filter(|&index| records[index].defines().is_some())
        .find(|index| waits(index) && !rests_on[*index].iter().any(waits))
}
