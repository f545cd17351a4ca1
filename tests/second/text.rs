//! The text form of docs/RULES.md. Bytes are numbers below 256, as everywhere in this program.

const DIGITS: &[u8; 16] = b"0123456789abcdef";
const LINE_FEED: u16 = 10;

fn frame(first: usize, second: usize) -> Vec<u16> {
    let digits = |value: usize| {
        (0..4)
            .rev()
            .map(move |place| u16::from(DIGITS[value >> (4 * place) & 15]))
    };
    digits(first)
        .chain(digits(second))
        .chain([LINE_FEED])
        .collect()
}

/// The text of a vertex count and a list of ends of even length, well-formed or not.
pub fn of(vertices: usize, ends: &[u16]) -> Vec<u16> {
    let mut text = frame(vertices, ends.len() / 2);
    for pair in ends.chunks(2) {
        text.extend(frame(pair[0] as usize, pair[1] as usize));
    }
    text
}

pub fn shown(text: &[u16]) -> String {
    text.iter().map(|&byte| char::from(byte as u8)).collect()
}

fn number(digits: &[u16]) -> Option<usize> {
    let mut value = 0;
    for &digit in digits {
        value = 16 * value + DIGITS.iter().position(|&known| u16::from(known) == digit)?;
    }
    Some(value)
}

fn two_numbers(frame: &[u16]) -> Option<(usize, usize)> {
    if frame.len() != 9 || frame[8] != LINE_FEED {
        return None;
    }
    Some((number(&frame[..4])?, number(&frame[4..8])?))
}

/// The vertex count and the ends of a text that has the form.
pub fn parse(text: &[u16]) -> Option<(usize, Vec<u16>)> {
    let (vertices, lines) = two_numbers(text.get(..9)?)?;
    if text.len() != 9 * (lines + 1) {
        return None;
    }
    let mut ends = Vec::new();
    for frame in text[9..].chunks(9) {
        let (first, second) = two_numbers(frame)?;
        ends.extend([first as u16, second as u16]);
    }
    Some((vertices, ends))
}
