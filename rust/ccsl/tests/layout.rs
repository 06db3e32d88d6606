//! Lists of the layout before this one, with six numbers a record and 64 words a configuration, and
//! what tells that they are such: their lengths where these can, else `ccsl_layout`.

use ccsl::{raw, Clocks, Delays, Kind, Record, Refusal};

/// Numbers that no call writes.
const LEFT: u64 = 0xAAAA_AAAA_AAAA_AAAA;
const LEFT_WORD: i64 = -0x5555_5555_5555_5556;

/// `a precedes b` as it is now, and as it was.
const EIGHT: [u64; 8] = [5, 0, 0, 1, 0, 1, 0, 0];
const SIX: [u64; 6] = [5, 0, 0, 1, 0, 1];

const TABLE: &[u8] = b"a precedes b";
const RECORDING: &[u8] = b"$var event 1 ! a $end $var event 1 % b $end $enddefinitions $end #0 1!";

/// What the four calls on records return and answer, which is the same status in all of them.
struct Called {
    status: u32,
    /// Of the start, of a step with these ticks, of the same-place question and of the order.
    answers: [Vec<u64>; 4],
}

/// Asks the four calls, the step from the start words.
fn called(records: &[u64], clocks: u32, ticks: u32) -> Called {
    let [mut start, mut step, mut place] = [(); 3].map(|()| vec![LEFT; 3]);
    let (mut order, mut listed) = (vec![LEFT; 4], vec![LEFT; 32]);
    let mut words = vec![LEFT_WORD; 128];
    let status = raw::start_words(records, clocks, clocks, &mut words, &mut start);
    let first = words.clone();
    let others = [
        raw::step(records, clocks, clocks, &mut words, ticks, &mut step),
        raw::same_place(records, clocks, clocks, &first, &first, &mut place),
        raw::definition_order(records, clocks, clocks, &mut order, &mut listed),
    ];
    assert_eq!(others, [status; 3]);
    if status != raw::DONE {
        assert_eq!((words, listed), (vec![LEFT_WORD; 128], vec![LEFT; 32]));
    }
    let answers = [start, step, place, order];
    Called { status, answers }
}

#[test]
fn the_library_has_the_layout_of_this_crate() {
    assert_eq!(raw::layout(), raw::LAYOUT);
    assert_eq!(raw::layout(), 2);
}

#[test]
fn a_configuration_of_64_words_is_told_in_every_call_and_nothing_written() {
    for length in [0, 1, 63, 64, 65, 126, 127] {
        let (mut a, mut w) = (vec![LEFT; 5], vec![LEFT_WORD; length]);
        let long = [0; 128];
        for unknown in [raw::UNKNOWN_REFUSED, raw::UNKNOWN_IGNORED] {
            let status = raw::run(TABLE, RECORDING, unknown, &mut a, &mut w);
            assert_eq!(status, raw::WORDS_SHORT);
        }
        let statuses = [
            raw::start_words(&EIGHT, 2, 2, &mut w, &mut a),
            raw::step(&EIGHT, 2, 2, &mut w, 0b01, &mut a),
            raw::same_place(&EIGHT, 2, 2, &w, &w, &mut a),
            raw::same_place(&EIGHT, 2, 2, &w, &long, &mut a),
            raw::same_place(&EIGHT, 2, 2, &long, &w, &mut a),
        ];
        assert_eq!(statuses, [raw::WORDS_SHORT; 5], "{length}");
        assert_eq!((a, w), (vec![LEFT; 5], vec![LEFT_WORD; length]), "{length}");
    }
}

#[test]
fn too_few_words_are_told_before_sixes() {
    let (mut a, mut w) = (vec![LEFT; 3], vec![LEFT_WORD; 64]);
    let status = raw::step(&SIX, 2, 2, &mut w, 0b01, &mut a);
    assert_eq!(status, raw::WORDS_SHORT);
    assert_eq!((a, w), (vec![LEFT; 3], vec![LEFT_WORD; 64]));
}

#[test]
fn sixes_that_are_no_eights_are_told() {
    for count in (1..=64).filter(|count| count % 4 != 0) {
        let called = called(&SIX.repeat(count), 2, 0b01);
        assert_eq!(called.status, raw::RECORDS_RAGGED, "{count}");
        for answer in called.answers {
            assert!(answer.iter().all(|number| *number == LEFT), "{count}");
        }
    }
}

/// Four records as they were: `a precedes b`, `b precedes c`, `c precedes d`, `d precedes e`.
const FOUR: [u64; 24] = [
    5, 0, 0, 1, 0, 1, //
    5, 0, 1, 2, 0, 2, //
    5, 0, 2, 3, 0, 3, //
    5, 0, 3, 4, 0, 4,
];

/// A record with zeros for all that is not given.
fn record(kind: Kind, defined: u64, first: u64, second: u64) -> Record {
    Record {
        kind,
        defined,
        first,
        second,
        number: 0,
        delays: Delays::default(),
        line: 0,
    }
}

#[test]
fn four_sixes_are_three_eights_and_judged_as_such() {
    // 5 0 0 1 0 1 5 0, 1 2 0 2 5 0 2 3 and 0 3 5 0 3 4 0 4: `a precedes b`, `a = c` and an empty
    // record.
    let taken_for = [
        record(Kind::Precedes, 0, 0, 1),
        record(Kind::Coincides, 0, 0, 2),
        record(Kind::Empty, 0, 0, 0),
    ];
    let a = 0b00001;
    for numbers in [FOUR.to_vec(), ccsl::numbers(&taken_for)] {
        let called = called(&numbers, 5, a);
        assert_eq!(called.status, raw::DONE);
        let [start, step, place, order] = called.answers;
        assert_eq!((start, place), (vec![0, 0, 0], vec![0, 0, 0]));
        assert_eq!((step, order), (vec![1, 2, 0], vec![0, 0, 0, 0]));
    }
}

#[test]
fn four_sixes_can_be_refused_or_have_an_unknown_kind() {
    // `c clockDef await 40 b` in the second place: the second eight is a coincidence of clock 40.
    let mut awaits = FOUR;
    awaits[6..12].copy_from_slice(&[10, 2, 1, 0, 40, 2]);
    let refused = called(&awaits, 5, 0);
    assert_eq!(refused.status, raw::DONE);
    for answer in refused.answers {
        assert_eq!(answer[..3], [2, 59, 2]);
    }
    // `p precedes q`, on clocks 20 and 21, in the second place: the second eight has the kind 20.
    let mut far = FOUR;
    far[6..12].copy_from_slice(&[5, 0, 20, 21, 0, 2]);
    let unknown = called(&far, 32, 0);
    assert_eq!(unknown.status, raw::KIND_UNKNOWN);
    // On clocks 14 and 15 it is a delay, whose list of 3 numbers begins with 2 and a 0.
    let mut delay = FOUR;
    delay[6..12].copy_from_slice(&[5, 0, 14, 15, 0, 2]);
    let refused = called(&delay, 32, 0);
    assert_eq!(refused.status, raw::DONE);
    assert_eq!(refused.answers[0], [2, 59, 2]);
}

#[test]
fn what_was_saved_becomes_what_it_is_by_zeros() {
    let records: Vec<u64> = FOUR
        .chunks(6)
        .flat_map(|six| [six, &[0, 0]].concat())
        .collect();
    let mut saved = [0; 64];
    saved[..4].copy_from_slice(&[1, 2, 3, 0]);
    let mut words: Vec<i64> = saved.iter().flat_map(|word| [*word, 0]).collect();
    let (mut a, d) = (vec![LEFT; 3], 1 << 3);
    assert_eq!(raw::step(&records, 5, 5, &mut words, d, &mut a), raw::DONE);
    assert_eq!(a, [0, 0, 0]);
    assert_eq!(words[..10], [1, 0, 2, 0, 2, 0, 1, 0, 0, 0]);
    assert_eq!(words[10..], [0; 118]);
    let chain: Vec<Record> = (0..4)
        .map(|i| Record {
            line: i + 1,
            ..record(Kind::Precedes, 0, i, i + 1)
        })
        .collect();
    assert_eq!(records, ccsl::numbers(&chain));
}

#[test]
fn words_without_zeros_between_them_are_another_configuration() {
    // 64 words as they were, and 64 zeros: the second word stands in the first pair.
    let mut words = [0; 128];
    words[..2].copy_from_slice(&[1, 2]);
    let records = [EIGHT, [5, 0, 1, 2, 0, 2, 0, 0]].concat();
    let mut a = vec![LEFT; 3];
    assert_eq!(raw::step(&records, 3, 3, &mut words, 0, &mut a), raw::DONE);
    assert_eq!(a, [2, 60, 1]);
}

#[test]
fn records_are_written_and_read_back_as_eights() {
    let delays = Delays {
        numbers: [1, 2, 3, 4, 5, 6, 7, 255],
        count: u64::MAX,
    };
    let any = Record {
        number: 9,
        delays,
        line: 10,
        ..record(Kind::Deferred, 6, 7, 8)
    };
    let numbers = 0xFF07_0605_0403_0201;
    assert_eq!(
        ccsl::numbers(&[any, record(Kind::Empty, 0, 0, 0)]),
        [
            14,
            6,
            7,
            8,
            9,
            10,
            numbers,
            u64::MAX,
            0,
            0,
            0,
            0,
            0,
            0,
            0,
            0
        ]
    );
    assert_eq!(
        ccsl::start_words(&[any], Clocks::all_named(9)),
        Err(Refusal {
            number: 59,
            place: 1
        })
    );
}
