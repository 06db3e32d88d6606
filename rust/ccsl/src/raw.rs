//! The calls of `include/ccsl_monitor.h` on lent lists: the only place of this crate with `unsafe`.
//!
//! Each function here but [`layout`] takes lists of any length with any numbers in them, and any
//! numbers beside them, and returns the header's status.

mod header {
    extern "C" {
        pub fn ccsl_layout() -> u32;

        pub fn ccsl_run(
            table: *const u8,
            table_len: usize,
            recording: *const u8,
            recording_len: usize,
            unknown: u32,
            answer: *mut u64,
            answer_len: usize,
            words: *mut i64,
            words_len: usize,
        ) -> u32;

        pub fn ccsl_read_table(
            text: *const u8,
            text_len: usize,
            answer: *mut u64,
            answer_len: usize,
            records: *mut u64,
            records_len: usize,
            names: *mut u64,
            names_len: usize,
        ) -> u32;

        pub fn ccsl_start_words(
            records: *const u64,
            records_len: usize,
            named: u32,
            clocks: u32,
            words: *mut i64,
            words_len: usize,
            answer: *mut u64,
            answer_len: usize,
        ) -> u32;

        pub fn ccsl_step(
            records: *const u64,
            records_len: usize,
            named: u32,
            clocks: u32,
            words: *mut i64,
            words_len: usize,
            ticks: u32,
            answer: *mut u64,
            answer_len: usize,
        ) -> u32;

        pub fn ccsl_same_place(
            records: *const u64,
            records_len: usize,
            named: u32,
            clocks: u32,
            first: *const i64,
            first_len: usize,
            second: *const i64,
            second_len: usize,
            answer: *mut u64,
            answer_len: usize,
        ) -> u32;

        pub fn ccsl_definition_order(
            records: *const u64,
            records_len: usize,
            named: u32,
            clocks: u32,
            answer: *mut u64,
            answer_len: usize,
            order: *mut u64,
            order_len: usize,
        ) -> u32;

        pub fn ccsl_read_recording(
            table: *const u8,
            table_len: usize,
            recording: *const u8,
            recording_len: usize,
            unknown: u32,
            answer: *mut u64,
            answer_len: usize,
            times: *mut u64,
            times_len: usize,
            marks: *mut u64,
            marks_len: usize,
            ticks: *mut u32,
            ticks_len: usize,
        ) -> u32;
    }
}

/// The answer was written.
pub const DONE: u32 = 0;
/// `answer` has fewer numbers than the call writes.
pub const ANSWER_SHORT: u32 = 1;
/// A configuration has fewer than 128 words.
pub const WORDS_SHORT: u32 = 2;
/// [`read_table`]: `records` has fewer than 64 · 8 numbers.
pub const RECORDS_SHORT: u32 = 3;
/// [`read_table`]: `names` has fewer than 32 · 2 numbers.
pub const NAMES_SHORT: u32 = 4;
/// The numbers of `records` do not come in eights.
pub const RECORDS_RAGGED: u32 = 5;
/// A record's kind is above that of `deferred`.
pub const KIND_UNKNOWN: u32 = 6;
/// [`definition_order`]: `order` has fewer than 32 numbers.
pub const ORDER_SHORT: u32 = 7;
/// [`run`] and [`read_recording`]: `unknown` is neither of the two choices.
pub const CHOICE_INVALID: u32 = 8;
/// [`read_recording`]: `times`, `marks` or `ticks` has fewer numbers than the recording has bytes.
pub const STEPS_SHORT: u32 = 9;

/// [`run`] and [`read_recording`]: a variable whose name the table lacks is refused, with 38. The
/// default.
pub const UNKNOWN_REFUSED: u32 = 0;
/// [`run`] and [`read_recording`]: such a variable is ignored.
pub const UNKNOWN_IGNORED: u32 = 1;

/// The first number of an answer: accepted, read, started, listed, or the same place.
pub const ACCEPTED: u64 = 0;
/// The first number of an answer: violated, or different places.
pub const VIOLATED: u64 = 1;
/// The first number of an answer: refused.
pub const REFUSED: u64 = 2;

/// Numbers that [`run`] writes into `answer`.
pub const RUN_ANSWER: usize = 5;
/// Numbers that [`read_table`] writes into `answer`.
pub const READ_ANSWER: usize = 6;
/// Numbers that [`start_words`] writes into `answer`.
pub const START_ANSWER: usize = 3;
/// Numbers that [`step`] writes into `answer`.
pub const STEP_ANSWER: usize = 3;
/// Numbers that [`same_place`] writes into `answer`.
pub const PLACE_ANSWER: usize = 3;
/// Numbers that [`definition_order`] writes into `answer`.
pub const ORDER_ANSWER: usize = 4;
/// Numbers that [`read_recording`] writes into `answer`.
pub const STEPS_ANSWER: usize = 4;
/// Numbers of a record: kind, c, a, b, n, line, numbers, count.
pub const RECORD: usize = 8;
/// Records that [`read_table`] writes.
pub const RECORDS: usize = 64;
/// Pairs that [`read_table`] writes into `names`, and numbers that [`definition_order`] writes into
/// `order`.
pub const CLOCKS: usize = 32;
/// Words of a configuration: two a record.
pub const WORDS: usize = 128;

/// The number of the layout of records and configurations that this crate has.
pub const LAYOUT: u32 = 2;

/// `ccsl_layout`: the number of the layout that the library has, which is [`LAYOUT`] where the two
/// belong together.
pub fn layout() -> u32 {
    // SAFETY: the call takes nothing and only returns a number.
    unsafe { header::ccsl_layout() }
}

/// `ccsl_run`.
pub fn run(
    table: &[u8],
    recording: &[u8],
    unknown: u32,
    answer: &mut [u64],
    words: &mut [i64],
) -> u32 {
    // SAFETY: each pointer comes from a slice, so it is not null and valid for its length, and
    // those that are written come from `&mut` slices, which overlap nothing. The call writes inside
    // these lengths and keeps no pointer.
    unsafe {
        header::ccsl_run(
            table.as_ptr(),
            table.len(),
            recording.as_ptr(),
            recording.len(),
            unknown,
            answer.as_mut_ptr(),
            answer.len(),
            words.as_mut_ptr(),
            words.len(),
        )
    }
}

/// `ccsl_read_table`.
pub fn read_table(text: &[u8], answer: &mut [u64], records: &mut [u64], names: &mut [u64]) -> u32 {
    // SAFETY: as in `run`.
    unsafe {
        header::ccsl_read_table(
            text.as_ptr(),
            text.len(),
            answer.as_mut_ptr(),
            answer.len(),
            records.as_mut_ptr(),
            records.len(),
            names.as_mut_ptr(),
            names.len(),
        )
    }
}

/// `ccsl_start_words`.
pub fn start_words(
    records: &[u64],
    named: u32,
    clocks: u32,
    words: &mut [i64],
    answer: &mut [u64],
) -> u32 {
    // SAFETY: as in `run`.
    unsafe {
        header::ccsl_start_words(
            records.as_ptr(),
            records.len(),
            named,
            clocks,
            words.as_mut_ptr(),
            words.len(),
            answer.as_mut_ptr(),
            answer.len(),
        )
    }
}

/// `ccsl_step`: the words are those of a monitor, which is moved where it stands.
pub fn step(
    records: &[u64],
    named: u32,
    clocks: u32,
    words: &mut [i64],
    ticks: u32,
    answer: &mut [u64],
) -> u32 {
    // SAFETY: as in `run`.
    unsafe {
        header::ccsl_step(
            records.as_ptr(),
            records.len(),
            named,
            clocks,
            words.as_mut_ptr(),
            words.len(),
            ticks,
            answer.as_mut_ptr(),
            answer.len(),
        )
    }
}

/// `ccsl_same_place`.
pub fn same_place(
    records: &[u64],
    named: u32,
    clocks: u32,
    first: &[i64],
    second: &[i64],
    answer: &mut [u64],
) -> u32 {
    // SAFETY: as in `run`; `first` and `second` are only read, and may be the same list.
    unsafe {
        header::ccsl_same_place(
            records.as_ptr(),
            records.len(),
            named,
            clocks,
            first.as_ptr(),
            first.len(),
            second.as_ptr(),
            second.len(),
            answer.as_mut_ptr(),
            answer.len(),
        )
    }
}

/// `ccsl_definition_order`.
pub fn definition_order(
    records: &[u64],
    named: u32,
    clocks: u32,
    answer: &mut [u64],
    order: &mut [u64],
) -> u32 {
    // SAFETY: as in `run`.
    unsafe {
        header::ccsl_definition_order(
            records.as_ptr(),
            records.len(),
            named,
            clocks,
            answer.as_mut_ptr(),
            answer.len(),
            order.as_mut_ptr(),
            order.len(),
        )
    }
}

/// `ccsl_read_recording`.
pub fn read_recording(
    table: &[u8],
    recording: &[u8],
    unknown: u32,
    answer: &mut [u64],
    times: &mut [u64],
    marks: &mut [u64],
    ticks: &mut [u32],
) -> u32 {
    // SAFETY: as in `run`.
    unsafe {
        header::ccsl_read_recording(
            table.as_ptr(),
            table.len(),
            recording.as_ptr(),
            recording.len(),
            unknown,
            answer.as_mut_ptr(),
            answer.len(),
            times.as_mut_ptr(),
            times.len(),
            marks.as_mut_ptr(),
            marks.len(),
            ticks.as_mut_ptr(),
            ticks.len(),
        )
    }
}
