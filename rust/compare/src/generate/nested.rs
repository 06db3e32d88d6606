//! Lines of tables with operands in parentheses.

use super::tables::{names_in, right_side, Word};
use crate::random::Random;

/// The most parentheses that may stand open.
pub const DEEPEST: usize = 16;

/// A parenthesis that opens.
pub fn opener() -> Word {
    b"(".to_vec()
}

/// A parenthesis that closes.
pub fn closer() -> Word {
    b")".to_vec()
}

/// Whether a word is a parenthesis.
pub fn is_parenthesis(word: &[u8]) -> bool {
    matches!(word, b"(" | b")")
}

/// The parentheses that stand open at each word of a line.
pub fn depths(line: &[Word]) -> Vec<usize> {
    let mut open: usize = 0;
    let mut depths = Vec::new();
    for word in line {
        match word.as_slice() {
            b"(" => open += 1,
            b")" => open = open.saturating_sub(1),
            _ => {}
        }
        depths.push(open);
    }
    depths
}

/// The pairs of parentheses in a line, by their openers.
pub fn pairs(line: &[Word]) -> usize {
    line.iter().filter(|word| *word == b"(").count()
}

/// The places of the names that are operands.
fn operands(line: &[Word]) -> Vec<usize> {
    let defines = line.get(1).is_some_and(|word| word == b"clockDef");
    let mut places = names_in(line);
    places.retain(|place| !defines || *place > 0);
    places
}

/// One of the operands becomes an expression in parentheses, often the deepest, but none that
/// stands sixteen deep; false where there is no other.
pub fn nest(random: &mut Random, line: &mut Vec<Word>, names: &[Word]) -> bool {
    if random.once_in(2) {
        return nest_deepest(random, line, names, DEEPEST);
    }
    let depths = depths(line);
    let mut places = operands(line);
    places.retain(|place| depths[*place] < DEEPEST);
    if places.is_empty() {
        return false;
    }
    let place = random.pick(&places);
    nest_at(random, line, names, place);
    true
}

/// The deepest operand becomes an expression in parentheses, unless it stands so deep.
pub fn nest_deepest(
    random: &mut Random,
    line: &mut Vec<Word>,
    names: &[Word],
    deepest: usize,
) -> bool {
    let depths = depths(line);
    let place = operands(line)
        .into_iter()
        .max_by_key(|place| depths[*place])
        .filter(|place| depths[*place] < deepest);
    place.is_some_and(|place| {
        nest_at(random, line, names, place);
        true
    })
}

/// The name at the place becomes an expression of itself, mostly with another name.
fn nest_at(random: &mut Random, line: &mut Vec<Word>, names: &[Word], place: usize) {
    let others: Vec<Word> = names
        .iter()
        .filter(|name| !line.contains(name))
        .cloned()
        .collect();
    let other = (!others.is_empty()).then(|| random.pick(&others));
    let inside = right_side(random, &line[place], other);
    line.splice(
        place..=place,
        [vec![opener()], inside, vec![closer()]].concat(),
    );
}

#[cfg(test)]
mod tests {
    use super::*;

    fn words(line: &str) -> Vec<Word> {
        line.split(' ')
            .map(|word| word.as_bytes().to_vec())
            .collect()
    }

    #[test]
    fn a_line_is_nested_as_often_as_it_can_be_and_stays_a_line() {
        let names = words("a b c d e");
        for pair in 0..200 {
            let mut random = Random::of_pair(31, pair);
            let mut line = words("a clockDef b upto c");
            let mut times = 0;
            while times < 20 && nest(&mut random, &mut line, &names) {
                times += 1;
            }
            assert_eq!(pairs(&line), times);
            assert!(times >= DEEPEST && depths(&line).into_iter().max() <= Some(DEEPEST));
            let table = second_opinion::read_table(&line.join(&b' ')).expect("a line");
            assert_eq!(table.clocks, table.named + times as u64);
        }
    }

    #[test]
    fn the_deepest_operand_is_nested_beyond_sixteen_where_that_is_asked_for() {
        let mut random = Random::of_pair(32, 0);
        let mut line = words("a = b");
        while nest_deepest(&mut random, &mut line, &words("a b c"), 17) {}
        assert_eq!(depths(&line).into_iter().max(), Some(17));
        let refusal = second_opinion::read_table(&line.join(&b' ')).expect_err("19");
        assert_eq!(refusal.number, 19);
    }
}
