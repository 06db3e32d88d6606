//! What reading a recording gives, with nothing judged: steps, refusals, and what is written into
//! lists. The expected values are written from documents 01 and 02.

use ccsl::{raw, read_recording, Reading, RecordedStep, Refusal, Time, UnknownNames};

const TABLE: &str = "req strictly precedes ack\ndone clockDef await 2 ack";

/// The header of document 01's example: two variables of 24 bytes, one of 25, and 21 more.
const HEADER: &str = "$var event 1 ! req $end $var event 1 \" ack $end \
                      $var event 1 % done $end $enddefinitions $end ";

fn read(table: &str, recording: &str) -> Reading {
    read_recording(
        table.as_bytes(),
        recording.as_bytes(),
        UnknownNames::Refused,
    )
}

/// Steps by time, offset of the mark and tick set, and the refusal by number and place.
fn reading(steps: &[(u64, u64, u32)], refusal: Option<(u64, u64)>) -> Reading {
    let step = |&(time, mark, ticks): &(u64, u64, u32)| RecordedStep {
        time: Time(time),
        mark,
        ticks,
    };
    Reading {
        steps: steps.iter().map(step).collect(),
        refusal: refusal.map(|(number, place)| Refusal { number, place }),
    }
}

fn body(text: &str) -> Reading {
    assert_eq!(HEADER.len(), 94);
    read(TABLE, &format!("{HEADER}{text}"))
}

#[test]
fn the_steps_of_document_01_are_read_also_the_violated_one() {
    let steps = [
        (0, 94, 0b001),
        (3, 100, 0),
        (5, 103, 0b011),
        (8, 112, 0b110),
        (9, 121, 0b011),
    ];
    assert_eq!(
        body("#0 1! #3 #5 1\" 1! #8 1\" 1% #9 1! 1\""),
        reading(&steps, None)
    );
}

#[test]
fn reading_goes_on_behind_a_violated_step() {
    let steps = [(0, 94, 0b010), (1, 100, 0b100), (2, 106, 0)];
    assert_eq!(
        body("#0 1\" #1 1% #2 1! 1!"),
        reading(&steps[..2], Some((44, 112)))
    );
    assert_eq!(body("#0 1\" #1 1% #2"), reading(&steps, None));
}

#[test]
fn a_refused_mark_closes_the_step_before_it_and_a_refused_change_does_not() {
    assert_eq!(body("#0 1! #1x"), reading(&[(0, 94, 1)], Some((40, 102))));
    assert_eq!(body("#4 1! #4"), reading(&[(4, 94, 1)], Some((41, 100))));
    assert_eq!(body("#0 1! q!"), reading(&[], Some((40, 100))));
    assert_eq!(body("#0 1! 1?"), reading(&[], Some((43, 100))));
    assert_eq!(body("1!"), reading(&[], Some((42, 94))));
}

#[test]
fn a_recording_without_marks_has_no_step() {
    assert_eq!(body(""), reading(&[], None));
}

#[test]
fn a_refused_table_gives_its_refusal_and_no_step() {
    assert_eq!(read("req ack", "#0"), reading(&[], Some((12, 1))));
    let long = " ".repeat(4097);
    assert_eq!(read(&long, HEADER), reading(&[], Some((10, 0))));
}

#[test]
fn a_refused_header_gives_its_refusal_and_no_step() {
    assert_eq!(read(TABLE, ""), reading(&[], Some((36, 0))));
    assert_eq!(
        read(TABLE, "$enddefinitions $end #0"),
        reading(&[], Some((35, 0)))
    );
    let long = " ".repeat(65_537);
    assert_eq!(read(TABLE, &long), reading(&[], Some((30, 0))));
}

#[test]
fn unknown_names_are_refused_or_ignored() {
    let recording = format!("$var event 1 & lamp $end {HEADER}#0 1& 1! 1&");
    assert_eq!(read(TABLE, &recording), reading(&[], Some((38, 0))));
    let ignored = read_recording(
        TABLE.as_bytes(),
        recording.as_bytes(),
        UnknownNames::Ignored,
    );
    assert_eq!(ignored, reading(&[(0, 119, 1)], None));
}

#[test]
fn implicit_clocks_are_not_in_a_tick_set() {
    let recording = "$var event 1 a a $end $var event 1 b b $end $var event 1 c c $end \
                     $enddefinitions $end #7 1a xb";
    let steps = [(7, 87, 0b011)];
    assert_eq!(
        read("(a lub b) precedes c", recording),
        reading(&steps, None)
    );
}

#[test]
fn times_go_up_to_the_largest() {
    let steps = [(u64::MAX, 94, 0)];
    assert_eq!(body("#18446744073709551615"), reading(&steps, None));
    assert_eq!(body("#18446744073709551616"), reading(&[], Some((41, 114))));
}

/// The most steps that 65,536 bytes have room for: marks of one digit, of two, and so on.
#[test]
fn as_many_steps_as_a_recording_has_room_for() {
    let mut recording = String::from("$enddefinitions $end");
    let mut steps = Vec::new();
    for time in 0.. {
        let mark = recording.len() as u64 + 1;
        let more = format!(" #{time}");
        if recording.len() + more.len() > 65_536 {
            break;
        }
        recording.push_str(&more);
        steps.push((time, mark, 0));
    }
    // 10 marks of 3 bytes, 90 of 4, 900 of 5, 9,000 of 6, and of the 6,626 bytes left 946 of 7.
    assert_eq!(steps.len(), 10_946);
    assert_eq!(read("", &recording), reading(&steps, None));
}

/// Lists of these lengths, all numbers of which are 7: the status, and what they then hold.
fn lists(answer: usize, lengths: [usize; 3], unknown: u32) -> (u32, [Vec<u64>; 3], Vec<u32>) {
    let recording = format!("{HEADER}#3 1! #5");
    let [mut answer, mut times, mut marks] = [answer, lengths[0], lengths[1]].map(|n| vec![7; n]);
    let mut ticks = vec![7; lengths[2]];
    let status = raw::read_recording(
        TABLE.as_bytes(),
        recording.as_bytes(),
        unknown,
        &mut answer,
        &mut times,
        &mut marks,
        &mut ticks,
    );
    (status, [answer, times, marks], ticks)
}

#[test]
fn what_stands_behind_the_steps_is_left_alone() {
    let long = HEADER.len() + 8;
    let (status, [answer, times, marks], ticks) = lists(5, [long, long + 1, long], 1);
    assert_eq!((status, answer), (raw::DONE, vec![0, 0, 0, 2, 7]));
    assert_eq!((times.len(), &times[..3]), (long, &[3, 5, 7][..]));
    assert_eq!((marks.len(), &marks[..3]), (long + 1, &[94, 100, 7][..]));
    assert_eq!((ticks.len(), &ticks[..3]), (long, &[1, 0, 7][..]));
    assert!(times[2..].iter().chain(&marks[2..]).all(|n| *n == 7));
    assert!(ticks[2..].iter().all(|n| *n == 7));
}

#[test]
fn where_a_list_is_too_short_nothing_is_written() {
    let long = HEADER.len() + 8;
    let cases = [
        (3, [long; 3], 0, raw::ANSWER_SHORT),
        (3, [0; 3], 2, raw::ANSWER_SHORT),
        (4, [0; 3], 2, raw::CHOICE_INVALID),
        (4, [long - 1, long, long], 0, raw::STEPS_SHORT),
        (4, [long, long - 1, long], 0, raw::STEPS_SHORT),
        (4, [long, long, long - 1], 0, raw::STEPS_SHORT),
    ];
    for (answer, lengths, unknown, expected) in cases {
        let (status, numbers, ticks) = lists(answer, lengths, unknown);
        assert_eq!(status, expected);
        assert!(numbers.iter().flatten().all(|n| *n == 7));
        assert!(ticks.iter().all(|n| *n == 7));
    }
}
