//! Damage to random texts: bytes flipped, lost and put in, numbers and blanks
//! that the paper's section "The text" does not allow, and texts as long as
//! its refusal 11 has them.

use crate::random::Random;
use crate::text::MOST_BYTES;

/// What is wanted at some place of the text, and what is put there instead.
const REPLACEMENTS: [(&[u8], &[u8]); 32] = [
    (b" ", b"  "),
    (b" ", b"\t"),
    (b" ", b""),
    (b" ", b" -"),
    (b" ", b" +"),
    (b" ", b"\n"),
    (b" 1", b" 01"),
    (b" 2", b" -02"),
    (b" 0", b" -0"),
    (b" 0", b" 00"),
    (b" 0", b" -"),
    (b" 0", b" 00000000"),
    (b" 1", b" 1234567"),
    (b" 1", b" 12345678"),
    (b" 1", b" -12345678"),
    (b")", b""),
    (b")", b" )"),
    (b")", b"))"),
    (b"(", b""),
    (b"(", b"( "),
    (b"(", b"(("),
    (b"\n", b"\r\n"),
    (b"\n", b" \n"),
    (b"\n", b"\n\n"),
    (b"\n", b""),
    (b"\n", b"(tally)\n"),
    (b"\n", b"\n "),
    (b"\n", b"\n(tallies)\n"),
    (b"(row", b"(Row"),
    (b"(row", b"(rows"),
    (b"(arc", b"(edge"),
    (b"a", b"\xc3\xa4"),
];

/// One damage at a random place.
pub fn damage(random: &mut Random, text: &mut Vec<u8>) {
    if text.is_empty() {
        return;
    }
    let place = random.between(0, text.len() as i64 - 1) as usize;
    let any_byte = random.between(0, 255) as u8;
    match random.between(0, 9) {
        0 => text[place] ^= 1 << random.between(0, 7),
        1 => text[place] = any_byte,
        2 => text.insert(place, any_byte),
        3 => {
            text.remove(place);
        }
        4 => text.truncate(place),
        5 => {
            text.pop();
        }
        _ => replace(random, text),
    }
}

/// One of the replacements at one of the places where it can be made.
fn replace(random: &mut Random, text: &mut Vec<u8>) {
    let (wanted, instead) = random.pick(&REPLACEMENTS);
    let places: Vec<usize> = (0..text.len())
        .filter(|&place| text[place..].starts_with(wanted))
        .collect();
    if !places.is_empty() {
        let place = random.pick(&places);
        text.splice(place..place + wanted.len(), instead.iter().copied());
    }
}

/// Fills the text up to a length just below, at or just above the limit.
pub fn pad_to_the_load(random: &mut Random, text: &mut Vec<u8>) {
    let length = MOST_BYTES - 6 + random.between(0, 10) as usize;
    let filler = random.pick(&["", "(tally)", "(row 0)", "(row 63)", "(two 0 1)", "; "]);
    while text.len() < length {
        let mut line = filler.as_bytes().to_vec();
        if filler == "; " {
            line.resize(random.between(2, 4_000) as usize, b'-');
        }
        line.push(b'\n');
        text.extend_from_slice(&line);
    }
    // The last line is cut off; mostly it still gets its line feed.
    text.truncate(length);
    if random.chance(80) {
        text.pop();
        text.push(b'\n');
    }
}

#[cfg(test)]
mod tests {
    use super::*;

    #[test]
    fn padded_texts_stand_on_both_sides_of_the_limit() {
        let mut random = Random::new(5, 0);
        let mut lengths = Vec::new();
        for _ in 0..200 {
            let mut text = b"(tally)\n".to_vec();
            pad_to_the_load(&mut random, &mut text);
            lengths.push(text.len());
        }
        assert_eq!(lengths.iter().min(), Some(&65_530));
        assert_eq!(lengths.iter().max(), Some(&65_540));
        assert!(lengths.contains(&65_536) && lengths.contains(&65_537));
    }

    #[test]
    fn damage_stands_any_text() {
        let mut random = Random::new(6, 0);
        let mut text = b"(row 0)\n".to_vec();
        for _ in 0..1_000 {
            damage(&mut random, &mut text);
        }
        damage(&mut random, &mut Vec::new());
    }
}
