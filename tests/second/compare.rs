//! Holds an answer against what was expected, number by number.

use crate::calls::{returned, Answer, Call, Expected, Request};
use crate::rules::Network;
use crate::sides::{Sides, DIFFERENT, SAME};
use crate::text;
use crate::turns::turn_fault;

/// What is wrong with the answer, or nothing.
pub fn difference(request: &Request, expected: &Expected, got: &Answer) -> Option<String> {
    match expected {
        Expected::Exactly(wanted) => {
            first_difference(request.call, wanted, got).or_else(|| turned_wrongly(request, got))
        }
        Expected::Ring(sides) => ring_difference(request, sides, got),
    }
}

fn first_difference(call: Call, wanted: &Answer, got: &Answer) -> Option<String> {
    if wanted.returned != got.returned {
        return Some(format!(
            "expected {}, got {}",
            shown(wanted.returned),
            shown(got.returned)
        ));
    }
    for (buffer, name) in call.buffers().iter().enumerate() {
        let (wanted, got) = (&wanted.buffers[buffer], &got.buffers[buffer]);
        let Some(place) = (0..wanted.len()).find(|&place| got.get(place) != Some(&wanted[place]))
        else {
            continue;
        };
        return Some(format!(
            "{name}[{place}]: expected {}, got {:?}\n  expected {name}: {wanted:?}\n  got      {name}: {got:?}",
            wanted[place],
            got.get(place)
        ));
    }
    None
}

/// A drawing must also keep to what left means, whatever the rules as written here made of it.
fn turned_wrongly(request: &Request, got: &Answer) -> Option<String> {
    if request.call != Call::Draw || got.returned & 255 != 0 {
        return None;
    }
    let network = Network::of_ends(request.vertices as usize, &request.buffers[0]);
    let lines = network.lines.len();
    let (choice, order) = (&got.buffers[1][..lines], &got.buffers[2][..2 * lines]);
    turn_fault(&network, choice, order, &got.buffers[3][..2 * lines])
}

fn shown(value: u64) -> String {
    format!(
        "{} with the counts {} and {}",
        value & 255,
        value >> 8 & 0xff_ffff,
        value >> 32
    )
}

/// Any ring will do, so it is tested; all else is expected exactly.
fn ring_difference(request: &Request, sides: &Sides, got: &Answer) -> Option<String> {
    let length = (got.returned >> 32) as usize;
    if got.returned != returned(7, 0, length) {
        return Some(format!(
            "expected 7 with the counts 0 and a ring's length, got {}",
            shown(got.returned)
        ));
    }
    if length > sides.network.lines.len() {
        return Some(format!(
            "a ring of {length} steps in a network of {} lines",
            sides.network.lines.len()
        ));
    }
    let lines = &got.buffers[2][..length];
    let kinds = &got.buffers[3][..length];
    if let Some(fault) = ring_fault(sides, lines, kinds) {
        return Some(format!(
            "no ring, {fault:?}: lines {lines:?}, kinds {kinds:?}"
        ));
    }
    let mut wanted = Answer {
        returned: got.returned,
        buffers: request.buffers.clone(),
    };
    wanted.buffers[2][..length].copy_from_slice(lines);
    wanted.buffers[3][..length].copy_from_slice(kinds);
    first_difference(request.call, &wanted, got)
}

/// What keeps steps from being a ring of a network.
#[derive(Clone, Copy, Debug, PartialEq)]
pub enum RingFault {
    TooShort,
    NoBackLine,
    LineTwice,
    NoConstraint,
    EvenlyDifferent,
    NotFromTheLowest,
    DifferentFirst,
    ToTheHigherNeighbour,
}

/// Why these are not a ring of this network, or nothing where they are one.
pub fn ring_fault(sides: &Sides, lines: &[u16], kinds: &[u16]) -> Option<RingFault> {
    let length = lines.len();
    if length < 2 {
        return Some(RingFault::TooShort);
    }
    let is_back_line = |line: &u16| sides.search.back.get(*line as usize) == Some(&true);
    if !lines.iter().all(is_back_line) {
        return Some(RingFault::NoBackLine);
    }
    if (1..length).any(|place| lines[..place].contains(&lines[place])) {
        return Some(RingFault::LineTwice);
    }
    let is_constraint = |place: usize| {
        let next = (place + 1) % length;
        sides.constrains(lines[place] as usize, lines[next] as usize, kinds[place])
    };
    if !(0..length).all(is_constraint) {
        return Some(RingFault::NoConstraint);
    }
    if kinds.iter().filter(|&&kind| kind == DIFFERENT).count() % 2 == 0 {
        return Some(RingFault::EvenlyDifferent);
    }
    if lines.iter().min() != Some(&lines[0]) {
        return Some(RingFault::NotFromTheLowest);
    }
    if length == 2 && kinds[0] != SAME {
        return Some(RingFault::DifferentFirst);
    }
    if length > 2 && lines[1] > lines[length - 1] {
        return Some(RingFault::ToTheHigherNeighbour);
    }
    None
}

/// The call for a reader: the network as text where it can be one, and all that was lent.
pub fn described(request: &Request) -> String {
    let mut words = format!(
        "call {}, vertices {}\n",
        request.call.name(),
        request.vertices
    );
    let ends = &request.buffers[0];
    if request.call != Call::Read && request.vertices <= 0xffff && ends.len() % 2 == 0 {
        words += &format!(
            "the network as text:\n{}",
            text::shown(&text::of(request.vertices as usize, ends))
        );
    }
    for (name, buffer) in request.call.buffers().iter().zip(&request.buffers) {
        if *name == "text" {
            words += &format!(
                "lent {name}, {} long: {:?}\n",
                buffer.len(),
                text::shown(buffer)
            );
        } else {
            words += &format!("lent {name}, {} long: {buffer:?}\n", buffer.len());
        }
    }
    words
}
