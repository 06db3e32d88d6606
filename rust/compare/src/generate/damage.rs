//! Texts damaged at random.

use crate::random::Random;

/// Damages a text in one to four places.
pub fn damage(random: &mut Random, text: &mut Vec<u8>) {
    for _ in 0..random.pick_by_weight(&[(8, 1), (3, 2), (1, 3), (1, 4)]) {
        once(random, text);
    }
}

fn once(random: &mut Random, text: &mut Vec<u8>) {
    if text.is_empty() {
        return text.push(any_byte(random));
    }
    let place = random.below(text.len());
    let piece = place..text.len().min(place + random.within(1..=12));
    match random.below(8) {
        0 => drop(text.remove(place)),
        1 => text.insert(place, any_byte(random)),
        2 => text[place] ^= 1 << random.below(8),
        3 => text[place] = any_byte(random),
        4 => drop(text.drain(piece)),
        5 => {
            let copy = text[piece].to_vec();
            let to = random.below(text.len() + 1);
            text.splice(to..to, copy);
        }
        6 => {
            let other = random.below(text.len());
            text.swap(place, other);
        }
        _ => text.truncate(place),
    }
}

/// Mostly a byte that means something.
fn any_byte(random: &mut Random) -> u8 {
    if random.once_in(4) {
        return random.below(256) as u8;
    }
    random.pick(b" \n\t\r#01xXzZ$=!\"abc_29()")
}
