//! The limits by their numbers, each in a sentence of docs/refusals.md.

/// The most bytes of a file that are read. A longer one is refused all the same.
pub const READ_AT_MOST: usize = 1 << 24;

/// What a limit's number says.
pub fn in_words(number: u64) -> &'static str {
    match number {
        10 => "the table has more than 4,096 bytes",
        11 => "the line holds a byte that is neither a space nor a plain printed character",
        12 => "the line fits none of the forms",
        13 => "a name in the line has more than 16 bytes",
        14 => "the number of an await is not from 1 to 1,000,000",
        15 => "the line names the same clock twice",
        16 => "the line defines a clock that an earlier line defines",
        17 => "the line brings a 33rd clock; each pair of parentheses is a clock too",
        18 => "the line brings a 65th constraint; each pair of parentheses is a constraint too",
        19 => "more than sixteen parentheses stand open",
        20 => "a parenthesis has no partner",
        21 => "the definitions rest on each other in a circle",
        22 => "a number of a delay is not from 1 to 32, or its list has no number or more than eight",
        30 => "the recording has more than 65,536 bytes",
        31 => "the recording holds a byte that is neither a plain printed character nor a space, tab or line end",
        32 => "in the header, this word opens no command, or `$enddefinitions` lacks its `$end`",
        33 => "the variable does not have the six words `$var event 1 id name $end`, with an id of 1 to 4 bytes",
        34 => "the variable has an id that an earlier one has, or declares a clock of the table again",
        35 => "the header ends, and a clock of the table has no variable",
        36 => "the recording ends before the header does",
        37 => "the variable is the 129th",
        38 => "the variable has a name that is no clock of the table",
        40 => "the word is neither a mark (# and digits) nor a change (0, 1, x, X, z or Z and an id)",
        41 => "the time of a mark is above 2^64 - 1, or not above that of the mark before it",
        42 => "the change stands before any mark, so that it belongs to no step",
        43 => "the change has an id that no variable has",
        44 => "a clock of the table ticks twice in one step",
        51 => "every constraint holds, but a word would leave its million",
        59 => "a record is wrong in itself or does not go with those before it",
        60 => "a word is not in the range of its record, or one beyond the records is not 0",
        61 => "the tick set has a clock that is not below the named count",
        _ => "a limit that has no words here",
    }
}
