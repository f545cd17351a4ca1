//! The calls to make on one network. Every lent buffer is filled with random marks first, so that
//! whatever a call must leave alone shows when it doesn't.

use crate::calls::{Call, Request, Rules};
use crate::random::Random;
use crate::rules::Network;
use crate::sides::{Sides, TREE};
use crate::text;

/// How much is asked of one network.
#[derive(Clone, Copy)]
pub struct Effort {
    /// The choices to step through from the first on; a walk that gets to the end is a whole list.
    pub walk: usize,
    /// The choices of the walk to draw, and as many random aligned ones to draw and to step from.
    pub draws: usize,
    /// The wrong choices to lend.
    pub wrong: usize,
}

/// With this few back lines every choice there is gets lent, and with these all are tried to check
/// this program's own list of choices.
const LEND_ALL: usize = 4;
const TRY_ALL: usize = 10;

pub fn marks(length: usize, width: usize, random: &mut Random) -> Vec<u16> {
    let most = if width == 1 { 256 } else { 65536 };
    (0..length).map(|_| random.below(most) as u16).collect()
}

fn some_more(random: &mut Random) -> usize {
    if random.coin() {
        0
    } else {
        random.between(1, 9)
    }
}

/// A call on a list of ends, well-formed or not, with buffers of the room that the call needs or more.
pub fn on_ends(
    call: Call,
    vertices: u64,
    ends: &[u16],
    choice: &[u16],
    random: &mut Random,
) -> Request {
    let rooms = call.rooms(vertices.min(600) as usize, ends.len() / 2);
    let mut buffers = vec![ends.to_vec()];
    for (&room, &width) in rooms.iter().zip(&call.widths()[1..]) {
        buffers.push(marks(room + some_more(random), width, random));
    }
    if matches!(call, Call::Next | Call::Draw) {
        buffers[1][..choice.len()].copy_from_slice(choice);
    }
    Request {
        call,
        vertices,
        buffers,
    }
}

/// Read, lent the text and room for so many lines.
pub fn on_text(text: &[u16], lines: usize, random: &mut Random) -> Request {
    let ends = marks(2 * lines + some_more(random), 2, random);
    Request {
        call: Call::Read,
        vertices: 0,
        buffers: vec![text.to_vec(), ends],
    }
}

pub fn on_network(
    rules: &mut Rules,
    network: &Network,
    effort: Effort,
    wanted: &[Call],
    random: &mut Random,
) -> Vec<Request> {
    let (vertices, ends) = (network.vertices as u64, network.ends());
    let mut requests = Vec::new();
    if wanted.contains(&Call::Read) {
        requests.push(on_text(
            &text::of(network.vertices, &ends),
            network.lines.len(),
            random,
        ));
    }
    for call in [Call::Orient, Call::Write, Call::First] {
        if wanted.contains(&call) {
            requests.push(on_ends(call, vertices, &ends, &[], random));
        }
    }
    let mut lend = |call: Call, choice: &[u16], random: &mut Random| {
        if wanted.contains(&call) {
            requests.push(on_ends(call, vertices, &ends, choice, random));
        }
    };
    if !wanted.contains(&Call::Next) && !wanted.contains(&Call::Draw) {
        return requests;
    }
    if network.refusal().is_some() {
        let choice = marks(network.lines.len(), 1, random);
        lend(Call::Next, &choice, random);
        lend(Call::Draw, &choice, random);
        return requests;
    }
    let sides = rules.sides(network);
    for (number, choice) in walk(&sides, effort.walk).iter().enumerate() {
        lend(Call::Next, choice, random);
        if number < effort.draws {
            lend(Call::Draw, choice, random);
        }
    }
    for choice in aligned_ones(&sides, effort.draws, random)
        .iter()
        .chain(&wrong_ones(&sides, effort.wrong, random))
    {
        lend(Call::Next, choice, random);
        lend(Call::Draw, choice, random);
    }
    requests
}

/// The first aligned choices in order.
fn walk(sides: &Sides, most: usize) -> Vec<Vec<u16>> {
    let mut list = Vec::new();
    if !sides.has_a_choice() {
        return list;
    }
    let mut choice = Some(sides.choice_with(&vec![false; sides.group_count()]));
    while let Some(here) = choice.filter(|_| list.len() < most) {
        choice = sides.next(&here);
        list.push(here);
    }
    if sides.search.back_lines().len() <= TRY_ALL && 1 << sides.group_count() <= most {
        assert_eq!(
            list,
            sides.every_aligned(),
            "two ways to the list of choices disagree: {:?}",
            sides.network
        );
    }
    list
}

/// The last aligned choice, the one before it where there is one, and random ones.
fn aligned_ones(sides: &Sides, count: usize, random: &mut Random) -> Vec<Vec<u16>> {
    if !sides.has_a_choice() {
        return Vec::new();
    }
    let mut turned = vec![true; sides.group_count()];
    let mut choices = vec![sides.choice_with(&turned)];
    if let Some(last) = turned.last_mut() {
        *last = false;
        choices.push(sides.choice_with(&turned));
    }
    for _ in 0..count {
        turned.iter_mut().for_each(|turn| *turn = random.coin());
        choices.push(sides.choice_with(&turned));
    }
    choices
}

/// Choices that are likely to be wrong; the rules say which of them are.
fn wrong_ones(sides: &Sides, count: usize, random: &mut Random) -> Vec<Vec<u16>> {
    let back_lines = sides.search.back_lines();
    let mut choices = Vec::new();
    if back_lines.len() <= LEND_ALL && count > 0 {
        choices.extend((0..1 << back_lines.len()).map(|number| sides.numbered_choice(number)));
    }
    for number in 0..count {
        let mut choice = match sides.has_a_choice() {
            true => sides.choice_with(
                &(0..sides.group_count())
                    .map(|_| random.coin())
                    .collect::<Vec<bool>>(),
            ),
            false => random_sides(sides, random),
        };
        match number % 4 {
            0 => choice = random_sides(sides, random),
            3 if sides.has_a_choice() => choice = sides.legal_choice(|| random.coin()),
            1 if !back_lines.is_empty() => {
                let line = random.one_of(&back_lines);
                choice[line] = 1 - choice[line];
            }
            _ if !choice.is_empty() => {
                let line = random.below(choice.len());
                choice[line] = random.one_of(&[0, 1, 2, 3, 128, 255]);
            }
            _ => {}
        }
        choices.push(choice);
    }
    choices
}

fn random_sides(sides: &Sides, random: &mut Random) -> Vec<u16> {
    sides
        .search
        .back
        .iter()
        .map(|&back| if back { random.below(2) as u16 } else { TREE })
        .collect()
}
