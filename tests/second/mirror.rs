//! This program as a driver that answers by the rules, so that the pipe and the comparison can be
//! tried where there is no library. It also finds rings, which the comparison itself never needs.

use crate::calls::{returned, Answer, Expected, Request, Rules};
use crate::driver::{put_answer, read_request};
use crate::sides::{Sides, DIFFERENT, SAME};
use std::io::{self, BufReader, Write};

/// Answers requests from standard input until it ends.
pub fn answer_all() {
    let mut input = BufReader::new(io::stdin().lock());
    let mut output = io::stdout().lock();
    let mut rules = Rules::new();
    let mut bytes = Vec::new();
    while let Ok(next) = read_request(&mut input) {
        let request = match next {
            Some(request) => request,
            None => {
                output
                    .write_all(&bytes)
                    .and_then(|()| output.flush())
                    .expect("the asker reads the answers");
                bytes.clear();
                continue;
            }
        };
        put_answer(&mut bytes, request.call, &answer(&mut rules, &request));
    }
}

pub fn answer(rules: &mut Rules, request: &Request) -> Answer {
    match rules.expected(request) {
        Expected::Exactly(answer) => answer,
        Expected::Ring(sides) => {
            let (lines, kinds) = ring(&sides);
            let mut buffers = request.buffers.clone();
            buffers[2][..lines.len()].copy_from_slice(&lines);
            buffers[3][..kinds.len()].copy_from_slice(&kinds);
            Answer {
                returned: returned(7, 0, lines.len()),
                buffers,
            }
        }
    }
}

/// A ring: the constraints are followed from line to line, each new line given its parity of
/// "different" steps, until a constraint speaks against the parities of its two lines.
pub fn ring(sides: &Sides) -> (Vec<u16>, Vec<u16>) {
    let back_lines = sides.search.back_lines();
    let mut parity: Vec<Option<u16>> = vec![None; sides.network.lines.len()];
    let mut came_by: Vec<Option<(usize, u16)>> = vec![None; sides.network.lines.len()];
    for &from in &back_lines {
        if parity[from].is_some() {
            continue;
        }
        parity[from] = Some(0);
        let mut queue = vec![from];
        let mut done = 0;
        while done < queue.len() {
            let line = queue[done];
            done += 1;
            let own = parity[line].expect("a queued line has its parity");
            for &other in back_lines.iter().filter(|&&other| other != line) {
                for kind in [SAME, DIFFERENT]
                    .into_iter()
                    .filter(|&kind| sides.constrains(line, other, kind))
                {
                    if parity[other].is_none() {
                        parity[other] = Some((own + kind) % 2);
                        came_by[other] = Some((line, kind));
                        queue.push(other);
                    } else if parity[other] != Some((own + kind) % 2) {
                        return closed_by(&came_by, line, other, kind);
                    }
                }
            }
        }
    }
    panic!("a ring was asked for where every constraint can be obeyed");
}

/// The ring of the steps back from both lines to where they meet, closed by the constraint between.
fn closed_by(
    came_by: &[Option<(usize, u16)>],
    line: usize,
    other: usize,
    kind: u16,
) -> (Vec<u16>, Vec<u16>) {
    let way_back = |from: usize| {
        let mut way = vec![(from, SAME)];
        let mut here = from;
        while let Some((before, kind)) = came_by[here] {
            way.push((before, kind));
            here = before;
        }
        way
    };
    let (way, other_way) = (way_back(line), way_back(other));
    let meets = |step: &(usize, u16)| {
        other_way
            .iter()
            .position(|other_step| other_step.0 == step.0)
    };
    let down = way
        .iter()
        .position(|step| meets(step).is_some())
        .expect("both ways lead to one start");
    let up = meets(&way[down]).expect("the ways meet there");
    // from the meeting place up to the line, over the closing constraint, and back down
    let mut lines: Vec<u16> = way[..=down]
        .iter()
        .rev()
        .map(|step| step.0 as u16)
        .collect();
    let mut kinds: Vec<u16> = way[1..=down].iter().rev().map(|step| step.1).collect();
    kinds.push(kind);
    lines.extend(other_way[..up].iter().map(|step| step.0 as u16));
    kinds.extend(other_way[1..=up].iter().map(|step| step.1));
    begun_as_asked(lines, kinds)
}

/// Turns a ring so that its smallest line has the first step, and the smaller of its neighbours the second.
fn begun_as_asked(mut lines: Vec<u16>, mut kinds: Vec<u16>) -> (Vec<u16>, Vec<u16>) {
    let length = lines.len();
    let lowest = (0..length)
        .min_by_key(|&place| lines[place])
        .expect("a ring is not empty");
    lines.rotate_left(lowest);
    kinds.rotate_left(lowest);
    let backwards = if length == 2 {
        kinds[0] != SAME
    } else {
        lines[1] > lines[length - 1]
    };
    if backwards {
        lines[1..].reverse();
        kinds.reverse();
    }
    (lines, kinds)
}
