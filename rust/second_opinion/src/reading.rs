//! A recording read by the names of a table, with nothing judged.

use crate::body::Body;
use crate::{read_table, RecordedStep, Refusal, UnknownNames};

/// What reading a recording gives.
#[derive(Clone, Debug, PartialEq, Eq)]
pub struct Reading {
    /// The steps that were read to their end, in the order of the recording.
    pub steps: Vec<RecordedStep>,
    /// The refusal at which reading stopped, if it did not come to the end.
    pub refusal: Option<Refusal>,
}

/// Reads a table, then a recording by its names, and judges nothing: steps and
/// refusals behind one that a run finds violated are read as well. `unknown` is
/// the choice on variables with names that the table lacks (M-103).
///
/// A refused table, and a refusal before the body, leave no step.
pub fn read_recording(table: &[u8], recording: &[u8], unknown: UnknownNames) -> Reading {
    let mut steps = Vec::new();
    let refusal = read(table, recording, unknown, &mut steps).err();
    Reading { steps, refusal }
}

/// Reads on until something is refused. "The table is read before the
/// recording."
fn read(
    table: &[u8],
    recording: &[u8],
    unknown: UnknownNames,
    steps: &mut Vec<RecordedStep>,
) -> Result<(), Refusal> {
    let table = read_table(table)?;
    for step in Body::of(recording, &table.names, unknown)? {
        steps.push(step?);
    }
    Ok(())
}
