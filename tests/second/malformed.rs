//! Input that a call must refuse, or that a careless one would: damaged networks, short buffers and
//! damaged texts. The rules decide what is to be answered, so a damage may also do no harm.

use crate::calls::{Call, Request};
use crate::networks;
use crate::random::Random;
use crate::requests::{marks, on_ends, on_text};
use crate::text;

/// Vertex counts at and past the limits, and ones that a narrower number would lose part of.
const VERTEX_COUNTS: [u64; 11] = [
    0,
    1,
    2,
    512,
    513,
    600,
    65_535,
    65_536 + 4,
    (1 << 32) + 4,
    1 << 63,
    u64::MAX,
];

/// Lengths of a list of ends about the limit of 2,048 lines.
const LENGTHS: [usize; 6] = [4094, 4095, 4096, 4097, 4098, 5000];

/// One damage to a list of ends or its vertex count.
#[derive(Clone, Copy)]
pub enum Damage {
    Vertices(u64),
    Length(usize),
    OneEndLess,
    EndThatIsNoVertex,
    EqualEnds,
    LineTwice,
    LineTwiceTurned,
    LineLess,
    VertexMore,
}

use Damage::*;

const OTHER_DAMAGES: [(&str, Damage); 7] = [
    ("one-end-less", OneEndLess),
    ("end-that-is-no-vertex", EndThatIsNoVertex),
    ("equal-ends", EqualEnds),
    ("line-twice", LineTwice),
    ("line-twice-turned", LineTwiceTurned),
    ("line-less", LineLess),
    ("vertex-more", VertexMore),
];

/// Every damage with its name.
pub fn damages() -> Vec<(String, Damage)> {
    let vertices = VERTEX_COUNTS.map(|count| (format!("vertices-{count}"), Vertices(count)));
    let lengths = LENGTHS.map(|length| (format!("ends-{length}"), Length(length)));
    let others = OTHER_DAMAGES.map(|(name, damage)| (name.to_string(), damage));
    vertices.into_iter().chain(lengths).chain(others).collect()
}

fn any_damage(random: &mut Random) -> Damage {
    match random.below(2 + OTHER_DAMAGES.len()) {
        0 => Vertices(random.one_of(&VERTEX_COUNTS)),
        1 => Length(random.one_of(&LENGTHS)),
        other => OTHER_DAMAGES[other - 2].1,
    }
}

fn inflict(damage: Damage, vertices: &mut u64, ends: &mut Vec<u16>, random: &mut Random) {
    let place = random.below(ends.len().max(1));
    let line = place / 2 * 2;
    match damage {
        Vertices(count) => *vertices = count,
        Length(length) => ends.resize(length, random.below(4) as u16),
        OneEndLess => {
            ends.pop();
        }
        EndThatIsNoVertex if !ends.is_empty() => {
            let just_past = vertices.wrapping_add(random.below(2) as u64) as u16;
            ends[place] = random.one_of(&[just_past, 0x8000, 0xffff]);
        }
        EqualEnds if ends.len() >= 2 => ends[line] = ends[(line + 1).min(ends.len() - 1)],
        LineTwice if ends.len() > line + 1 => ends.extend([ends[line], ends[line + 1]]),
        LineTwiceTurned if ends.len() > line + 1 => ends.extend([ends[line + 1], ends[line]]),
        LineLess if ends.len() > line + 1 => {
            ends.drain(line..line + 2);
        }
        VertexMore => *vertices = vertices.wrapping_add(1),
        // a network of one vertex has no line to damage
        _ => {}
    }
}

/// A call on a small network with this damage and up to two others, now and then with short buffers
/// too, so that the order of the checks shows.
pub fn damaged(damage: Damage, wanted: &[Call], random: &mut Random) -> Vec<Request> {
    let vertices = random.between(1, 8);
    let added = random.below(8);
    let tree = networks::random_tree(vertices, random);
    let network = networks::with_lines_added(tree, added, random);
    let (mut vertices, mut ends) = (network.vertices as u64, network.ends());
    inflict(damage, &mut vertices, &mut ends, random);
    for _ in 0..random.below(3) {
        inflict(any_damage(random), &mut vertices, &mut ends, random);
    }
    let shorten = random.below(4) == 0;
    let mut requests = Vec::new();
    for &call in wanted.iter().filter(|&&call| call != Call::Read) {
        let choice = marks(ends.len() / 2, 1, random);
        let mut request = on_ends(call, vertices, &ends, &choice, random);
        if shorten {
            let buffer = random.between(1, request.buffers.len() - 1);
            let room = call.rooms(vertices.min(512) as usize, ends.len() / 2)[buffer - 1];
            request.buffers[buffer].truncate(random.one_of(&[0, room.saturating_sub(1)]));
        }
        requests.push(request);
    }
    if wanted.contains(&Call::Read) && ends.len() % 2 == 0 {
        let lines = if shorten {
            random.below(ends.len() / 2 + 1)
        } else {
            ends.len() / 2
        };
        requests.push(on_text(
            &text::of(vertices as usize & 0xffff, &ends),
            lines,
            random,
        ));
    }
    requests
}

/// Every call with each of its buffers in turn one too short, empty, of exactly its room and longer.
pub fn buffer_lengths(wanted: &[Call], random: &mut Random) -> Vec<Request> {
    let vertices = random.between(1, 7);
    let tree = networks::random_tree(vertices, random);
    let network = networks::renumbered(
        networks::with_lines_added(tree, vertices / 2, random),
        random,
    );
    let lines = network.lines.len();
    let mut requests = Vec::new();
    for &call in wanted {
        let rooms = call.rooms(vertices, lines);
        for (buffer, &room) in rooms.iter().enumerate() {
            for length in [room.saturating_sub(1), 0, room, room + 1, room + 40] {
                let mut request = match call {
                    Call::Read => on_text(&text::of(vertices, &network.ends()), lines, random),
                    _ => on_ends(call, vertices as u64, &network.ends(), &[], random),
                };
                request.buffers[buffer + 1] = marks(length, call.widths()[buffer + 1], random);
                requests.push(request);
            }
        }
    }
    requests
}

/// Bytes beside those that have a place in a text, and those themselves.
const TELLING_BYTES: &[u8] = b"0189afgAFG/:`@ \n\r\t-\0\x7f\x80\xff";

/// A text with every single byte damaged in turn: by every other byte in the shortest texts.
fn every_damage(whole: &[u16], bytes: &[u16], random: &mut Random) -> Vec<Request> {
    let mut requests = Vec::new();
    for place in 0..whole.len() {
        for &byte in bytes {
            let mut text = whole.to_vec();
            text[place] = byte;
            requests.push(on_text(&text, whole.len() / 9 + 1, random));
        }
        let mut without = whole.to_vec();
        without.remove(place);
        requests.push(on_text(&without, whole.len() / 9, random));
        let mut doubled = whole.to_vec();
        doubled.insert(place, whole[place]);
        requests.push(on_text(&doubled, whole.len() / 9, random));
        requests.push(on_text(&whole[..place], whole.len() / 9, random));
    }
    requests
}

fn bytes_of(words: &str) -> Vec<u16> {
    words.bytes().map(u16::from).collect()
}

/// A text that claims so many lines and has a frame for each of `frames` of them.
fn claiming(vertices: usize, claimed: usize, frames: usize) -> Vec<u16> {
    let mut text = bytes_of(&format!("{vertices:04x}{claimed:04x}\n"));
    for number in 0..frames {
        text.extend(bytes_of(&format!(
            "{:04x}{:04x}\n",
            number % 512,
            (number + 1) % 512
        )));
    }
    text
}

fn by(bytes: &[u8]) -> Vec<u16> {
    bytes.iter().map(|&byte| u16::from(byte)).collect()
}

fn every_byte() -> Vec<u16> {
    (0..256).collect()
}

/// Kinds of texts, each with its name.
pub const TEXTS: [(&str, fn(&mut Random) -> Vec<Request>); 7] = [
    ("vertex-damaged", |random| {
        every_damage(&bytes_of("00010000\n"), &every_byte(), random)
    }),
    ("triangle-damaged", |random| {
        let triangle = bytes_of("00030003\n00000001\n00010002\n00020000\n");
        every_damage(&triangle, &every_byte(), random)
    }),
    ("path-damaged", |random| {
        let path = text::of(512, &networks::path(12).ends());
        every_damage(&path, &by(TELLING_BYTES), random)
    }),
    ("tree-damaged", |random| {
        let vertices = random.between(2, 300);
        let tree = networks::random_tree(vertices.min(30), random);
        let text = text::of(vertices, &networks::renumbered(tree, random).ends());
        every_damage(&text, &by(TELLING_BYTES), random)
    }),
    ("short", short_texts),
    ("line-counts", line_counts),
    ("lines-65535", most_lines),
];

fn short_texts(random: &mut Random) -> Vec<Request> {
    let words = [
        "",
        "\n",
        "00010000",
        "0001000\n",
        "00010000\r\n",
        " 00010000\n",
        "00010000\n\n",
        "00000000\n",
        "02010000\n",
        "02000000\n",
        "00020000\n",
        "0001000A\n",
        "ffffffff\n",
        "0001 000\n",
        "00020001\n",
    ];
    let read = |words: &&str| on_text(&bytes_of(words), 4, random);
    words.iter().map(read).collect()
}

/// Texts about the limit of lines, and ones that have not as many as they claim.
fn line_counts(random: &mut Random) -> Vec<Request> {
    let claims = [
        (512, 2048, 2048),
        (512, 2049, 2049),
        (512, 2050, 2050),
        (513, 2048, 2048),
        (0, 511, 511),
        (512, 2048, 2047),
        (512, 2048, 2049),
        (512, 511, 511),
        (511, 511, 511),
        (512, 65_535, 0),
    ];
    let read = |&(vertices, claimed, frames): &(usize, usize, usize)| {
        let text = claiming(vertices, claimed, frames);
        [frames, claimed.min(4000), 0].map(|lines| on_text(&text, lines, random))
    };
    claims.iter().flat_map(read).collect()
}

/// The longest text that has the form, whole and with its last byte wrong.
fn most_lines(random: &mut Random) -> Vec<Request> {
    let whole = claiming(2, 65_535, 65_535);
    let mut ending_badly = whole.clone();
    ending_badly[whole.len() - 1] = 13;
    [whole, ending_badly]
        .iter()
        .map(|text| on_text(text, 10, random))
        .collect()
}
