//! What is left of small recordings, and what is said of them.

use events::events;

/// Two events, and a vector, a wire and a real number beside them.
const HEADER: &str = "$scope module line $end $var event 1 ! item $end $var event 1 \" seal $end ";
const BESIDE: &str =
    "$var integer 32 # n [31:0] $end $var wire 1 $ w $end $var real 1 b1 t $end $upscope $end ";
const END: &str = "$enddefinitions $end ";

/// What is left of a body behind that header.
fn left_of(body: &str) -> String {
    let start = format!("{HEADER}{BESIDE}{END}");
    let filtered = events(format!("{start}{body}").as_bytes());
    let left = String::from_utf8(filtered.recording).unwrap();
    let start = format!("{HEADER}$upscope $end {END}");
    left.strip_prefix(&start).expect(&left).to_string()
}

fn said_of(body: &str) -> Vec<String> {
    events(format!("{HEADER}{END}{body}").as_bytes()).said
}

#[test]
fn variables_that_are_no_event_go_with_their_changes() {
    assert_eq!(
        left_of("#0 1! b01 # #1 1$ 1\" x$ r1.5 b1 #2"),
        "#0 1! #1 1\" #2"
    );
    assert_eq!(left_of("#0\n1!\nbx #\n#1\nz$\n"), "#0\n1!\n#1\n");
    let filtered = events(format!("{HEADER}{BESIDE}{END}#0 1$ b1 # 0$").as_bytes());
    assert_eq!(
        filtered.said,
        ["took out what is no event 1: 3 variables, 3 changes: n (integer 32), w (wire 1), t (real 1)"]
    );
}

#[test]
fn an_event_of_another_size_and_a_longer_name_are_taken_by_their_words() {
    let text = "$var event 2 ! a $end $var event 1 % b [0] $end $enddefinitions $end #0 1! 1%";
    let left = "$var event 1 % b [0] $end $enddefinitions $end #0 1%";
    assert_eq!(events(text.as_bytes()).recording, left.as_bytes());
}

#[test]
fn an_id_that_an_event_shares_is_left() {
    let text = "$var wire 1 ! a $end $var event 1 ! a $end $enddefinitions $end #0 1! x!";
    let left = "$var event 1 ! a $end $enddefinitions $end #0 1! x!";
    assert_eq!(events(text.as_bytes()).recording, left.as_bytes());
}

#[test]
fn dumps_go_wherever_their_words_stand() {
    assert_eq!(
        left_of("#0 $dumpvars 1! 1\" x$ $end 1! #5 1\""),
        "#0 1! #5 1\""
    );
    assert_eq!(
        left_of("#0 1! $dumpall 1! b0 # $end #5 1\""),
        "#0 1! #5 1\""
    );
    assert_eq!(left_of("$dumpvars\n1!\n$end\n#0\n1!\n"), "#0\n1!\n");
    assert_eq!(
        left_of("#0\t$dumpoff\r\nx!\r\n$end\r\n#5 $dumpon 1! $end 1!\n"),
        "#0\t#5 1!\n"
    );
    assert_eq!(left_of("#0 $dumpvars $end"), "#0 ");
}

#[test]
fn a_dump_without_its_end_takes_nothing_with_it() {
    let body = "#0 $dumpvars 1! #5 1\" $dumpall 1! $end #6 1!";
    assert_eq!(left_of(body), "#0 $dumpvars 1! #5 1\" #6 1!");
    assert_eq!(
        said_of(body)[..2],
        [
            "took out $dumpall at 5",
            "left $dumpvars at 0, which has no $end of its own"
        ]
    );
    assert_eq!(left_of("#0 1! $dumpall 1!"), "#0 1! $dumpall 1!");
    assert_eq!(
        left_of("#0 1! $comment to the end"),
        "#0 1! $comment to the end"
    );
}

#[test]
fn ids_that_look_like_something_else_stay_ids() {
    // # is the id of the vector, $ that of the wire and b1 that of the real number.
    assert_eq!(left_of("#0 b1 # #1 1$ r0 b1 1b1 #2 1!"), "#0 #1 #2 1!");
    assert_eq!(left_of("#0 $dumpvars b1 # 1$ $end #1 1!"), "#0 #1 1!");
    // A word that opens with $ is no change, also where an id follows.
    assert_eq!(left_of("#0 $$ $b1 1!"), "#0 $$ $b1 1!");
}

#[test]
fn what_the_checker_refuses_is_left_for_it() {
    let body = "1! #x 1! b01 ! x! $dumpports 1 $end & 1 #";
    assert_eq!(left_of(body), body);
    for text in [
        "",
        "\n",
        "#0 1!",
        "$var event 1 !",
        "$comment $var wire 1 ! a $end",
    ] {
        assert_eq!(events(text.as_bytes()).recording, text.as_bytes());
    }
    let bytes = b"\t$var event 1 ! \xb5 $end \0 $enddefinitions $end #0 1! \xff";
    assert_eq!(events(bytes).recording, bytes);
}

#[test]
fn comments_go_from_the_body_and_stay_in_the_header() {
    let text = "$comment $var wire 1 ! a $end $enddefinitions $end #0 $comment a\n b $end #1";
    let filtered = events(text.as_bytes());
    assert_eq!(
        filtered.recording,
        b"$comment $var wire 1 ! a $end $enddefinitions $end #0 #1"
    );
    assert_eq!(filtered.said, ["took out $comment a b $end"]);
}

#[test]
fn nothing_taken_out_is_said_too() {
    assert_eq!(said_of("#0 1! #1 1\""), ["took nothing out"]);
    assert_eq!(
        events(b"$var event 1 ! a $end").said,
        [
            "took nothing out",
            "the header has no end: this is no whole recording"
        ]
    );
}

/// The lines that open with `warning`.
fn warnings(body: &str) -> Vec<String> {
    let said = said_of(body).into_iter();
    said.filter(|line| line.starts_with("warning")).collect()
}

#[test]
fn first_ticks_that_a_dump_hides_are_told() {
    let hidden = |body: &str| {
        let find = |line: &String| {
            let times = line.strip_prefix("warning: what ticked at ")?;
            Some(times.split(" is not to be had").next()?.to_string())
        };
        warnings(body).iter().find_map(find)
    };
    assert_eq!(
        hidden("#0 $dumpvars 1! 1\" $end #5 1!").as_deref(),
        Some("0")
    );
    assert_eq!(
        hidden("$dumpvars 1! $end #0 1!").as_deref(),
        Some("the start")
    );
    assert_eq!(
        hidden("#0 #3 1! $dumpall 1! $end #5 1!").as_deref(),
        Some("3")
    );
    assert_eq!(
        hidden("#1 $dumpvars 1! $end #2 $dumpall 1\" $end 1!").as_deref(),
        Some("1, 2")
    );
    assert_eq!(hidden("#0 1! #5 $dumpall 1! 1\" $end 1!"), None);
    assert_eq!(hidden("#0 $dumpvars 1& b1 ' $end #5 1!"), None);
    assert_eq!(hidden("#0 $dumpoff x! $end #1 $dumpon 1& $end"), None);
    assert_eq!(hidden("#0 $dumpoff 1! $end #1 1!"), None);
    for value in ["0", "1", "x", "X", "z", "Z"] {
        let dumped = format!("#0 $dumpvars {value}! $end #5 1!");
        assert_eq!(hidden(&dumped).as_deref(), Some("0"), "{dumped}");
        let ticked = format!("#0 {value}! #5 $dumpall 1! $end 1!");
        assert_eq!(hidden(&ticked), None, "{ticked}");
    }
}

#[test]
fn a_dump_that_is_off_is_told() {
    assert_eq!(
        warnings("#0 1! #2 $dumpoff x! $end #7 $dumpon 1! $end 1! #9 $dumpoff $end 1!"),
        [
            "warning: nothing was recorded from $dumpoff at 2 to $dumpon at 7",
            "warning: nothing was recorded from $dumpoff at 9 to the end"
        ]
    );
}

#[test]
fn long_lists_are_cut() {
    let body: String = (0..11)
        .map(|time| format!("#{time} 1! $dumpall $end "))
        .collect();
    assert_eq!(
        said_of(&body),
        ["took out $dumpall at 0, 1, 2, 3, 4, 5, 6, 7 and 3 more"]
    );
}

/// Numbers that look random.
struct Random(u64);

impl Random {
    fn one_of<T: Copy>(&mut self, items: &[T]) -> T {
        self.0 = self
            .0
            .wrapping_mul(6364136223846793005)
            .wrapping_add(1442695040888963407);
        items[(self.0 >> 33) as usize % items.len()]
    }
}

/// Pieces of a body that are left, and pieces that are taken out.
const LEFT: [&str; 6] = ["#", "1!", "1\"", "0!", "x!", "b1 !"];
const TAKEN: [&str; 9] = [
    "1$",
    "x$",
    "b01 #",
    "BZ b1",
    "r1.5 $",
    "$dumpvars 1! 1\" b1 # x$ $end",
    "$dumpall 1\" $end",
    "$dumpoff x! $end",
    "$comment 1! #7 $dumpvars $end",
];

#[test]
fn of_pieces_in_any_order_and_layout_the_right_ones_are_left() {
    let mut random = Random(20261116);
    for _ in 0..2000 {
        let (mut body, mut left) = (String::new(), String::new());
        for time in 0..random.one_of(&[0, 1, 5, 20]) {
            let is_left = random.one_of(&[true, false]);
            let piece = random.one_of(if is_left { &LEFT[..] } else { &TAKEN[..] });
            let mark = format!("#{time}");
            for word in piece.split(' ') {
                let gap = random.one_of(&[" ", "\n", "\t", "\r\n", "  ", " \n\n"]);
                let word = if word == "#" && is_left { &mark } else { word };
                body += &format!("{word}{gap}");
                if is_left {
                    left += &format!("{word}{gap}");
                }
            }
        }
        assert_eq!(left_of(&body), left, "{body:?}");
    }
}
