//! What the six calls must answer: the ten numbers in their order, the counts, and every lent
//! number afterwards, as docs/RULES.md has them.

use crate::drawing::Drawing;
use crate::rules::{Network, Search, MOST_LINES, MOST_VERTICES};
use crate::sides::Sides;
use crate::text;
use std::sync::Arc;

#[derive(Clone, Copy, Debug, PartialEq)]
pub enum Call {
    Orient,
    First,
    Next,
    Draw,
    Read,
    Write,
}

impl Call {
    pub const ALL: [Call; 6] = [
        Call::Orient,
        Call::First,
        Call::Next,
        Call::Draw,
        Call::Read,
        Call::Write,
    ];

    pub fn name(self) -> &'static str {
        ["orient", "first", "next", "draw", "read", "write"][self as usize]
    }

    /// The names of the buffers in the order in which they are lent.
    pub fn buffers(self) -> &'static [&'static str] {
        match self {
            Call::Orient => &["ends", "kinds", "heights"],
            Call::First => &["ends", "choice", "ring lines", "ring kinds"],
            Call::Next => &["ends", "choice"],
            Call::Draw => &["ends", "choice", "order", "mesh", "sizes"],
            Call::Read => &["text", "ends"],
            Call::Write => &["ends", "text"],
        }
    }

    /// The bytes that one number of each buffer takes.
    pub fn widths(self) -> Vec<usize> {
        let is_narrow = |name: &&str| ["kinds", "choice", "ring kinds", "text"].contains(name);
        self.buffers()
            .iter()
            .map(|name| if is_narrow(name) { 1 } else { 2 })
            .collect()
    }

    /// The room that each lent buffer needs after the list of ends; for read, after the text.
    pub fn rooms(self, vertices: usize, lines: usize) -> Vec<usize> {
        match self {
            Call::Orient => vec![lines, vertices],
            Call::First => vec![lines, lines, lines],
            Call::Next => vec![lines],
            Call::Draw => vec![lines, 2 * lines, 2 * lines, 2 * lines + 1],
            Call::Read => vec![2 * lines],
            Call::Write => vec![9 * (lines + 1)],
        }
    }
}

/// One call with all that it is lent. Bytes are kept as numbers below 256.
#[derive(Clone, Debug)]
pub struct Request {
    pub call: Call,
    pub vertices: u64,
    pub buffers: Vec<Vec<u16>>,
}

#[derive(Clone, Debug, PartialEq)]
pub struct Answer {
    pub returned: u64,
    pub buffers: Vec<Vec<u16>>,
}

pub enum Expected {
    Exactly(Answer),
    /// The answer 7, with any ring that is one by these constraints.
    Ring(Arc<Sides>),
}

pub fn returned(number: u64, first_count: usize, second_count: usize) -> u64 {
    number + 256 * first_count as u64 + ((second_count as u64) << 32)
}

/// Answers by the rules. The sides of the last network are kept: many calls in a row share one.
pub struct Rules {
    last: Option<Arc<Sides>>,
}

impl Rules {
    pub fn new() -> Rules {
        Rules { last: None }
    }

    pub fn sides(&mut self, network: &Network) -> Arc<Sides> {
        if let Some(last) = &self.last {
            if last.network == *network {
                return last.clone();
            }
        }
        let sides = Arc::new(Sides::of(network));
        self.last = Some(sides.clone());
        sides
    }

    pub fn expected(&mut self, request: &Request) -> Expected {
        let mut buffers = request.buffers.clone();
        let answered = if request.call == Call::Read {
            read(&mut buffers)
        } else {
            self.on_network(request, &mut buffers)
        };
        match answered {
            Err(7) => Expected::Ring(self.last.clone().expect("7 is said of the last network")),
            _ => Expected::Exactly(answer(request, answered, buffers)),
        }
    }

    fn on_network(
        &mut self,
        request: &Request,
        buffers: &mut [Vec<u16>],
    ) -> Result<(usize, usize), u64> {
        let network = well_formed(request)?;
        match request.call {
            Call::Orient => Ok(orient(&network, buffers)),
            Call::First => first(&self.sides(&network), buffers),
            Call::Next => next(&self.sides(&network), buffers),
            Call::Draw => draw(&self.sides(&network), buffers),
            Call::Write => {
                let written = text::of(request.vertices as usize, &request.buffers[0]);
                fill(&mut buffers[1], &written);
                Ok((written.len(), 0))
            }
            Call::Read => unreachable!("read is lent no network"),
        }
    }
}

/// The answer with these counts and buffers, or a refusal, which leaves the buffers as they were lent.
pub fn answer(
    request: &Request,
    answered: Result<(usize, usize), u64>,
    buffers: Vec<Vec<u16>>,
) -> Answer {
    match answered {
        Ok((first, second)) => Answer {
            returned: returned(0, first, second),
            buffers,
        },
        Err(number) => Answer {
            returned: returned(number, 0, 0),
            buffers: request.buffers.clone(),
        },
    }
}

/// The lent network, or the first of the refusals 2 to 6 that applies.
pub fn well_formed(request: &Request) -> Result<Network, u64> {
    let ends = &request.buffers[0];
    if request.vertices == 0 || request.vertices > MOST_VERTICES || ends.len() > 2 * MOST_LINES {
        return Err(2);
    }
    let vertices = request.vertices as usize;
    let rooms = request.call.rooms(vertices, ends.len() / 2);
    if ends.len() % 2 == 1 || is_short(&request.buffers[1..], &rooms) {
        return Err(3);
    }
    let network = Network::of_ends(vertices, ends);
    network.refusal().map_or(Ok(network), Err)
}

fn is_short(buffers: &[Vec<u16>], rooms: &[usize]) -> bool {
    buffers
        .iter()
        .zip(rooms)
        .any(|(buffer, &room)| buffer.len() < room)
}

fn fill(buffer: &mut [u16], values: &[u16]) {
    buffer[..values.len()].copy_from_slice(values);
}

fn narrow(values: &[usize]) -> Vec<u16> {
    values
        .iter()
        .map(|&value| u16::try_from(value).expect("a number of the rules fits its place"))
        .collect()
}

fn read(buffers: &mut [Vec<u16>]) -> Result<(usize, usize), u64> {
    let (vertices, ends) = text::parse(&buffers[0]).ok_or(1_u64)?;
    let lines = ends.len() / 2;
    if vertices == 0 || vertices as u64 > MOST_VERTICES || lines > MOST_LINES {
        return Err(2);
    }
    if is_short(&buffers[1..], &Call::Read.rooms(vertices, lines)) {
        return Err(3);
    }
    if let Some(number) = Network::of_ends(vertices, &ends).refusal() {
        return Err(number);
    }
    fill(&mut buffers[1], &ends);
    Ok((vertices, lines))
}

fn orient(network: &Network, buffers: &mut [Vec<u16>]) -> (usize, usize) {
    let search = Search::of(network);
    let kinds: Vec<u16> = search.back.iter().map(|&back| u16::from(back)).collect();
    fill(&mut buffers[1], &kinds);
    fill(&mut buffers[2], &narrow(&search.height));
    (search.back_lines().len(), 0)
}

fn first(sides: &Sides, buffers: &mut [Vec<u16>]) -> Result<(usize, usize), u64> {
    if !sides.has_a_choice() {
        return Err(7);
    }
    let choice = sides.choice_with(&vec![false; sides.group_count()]);
    assert!(
        sides.is_aligned(&choice),
        "a coloured choice that is not aligned: {:?}",
        sides.network
    );
    fill(&mut buffers[1], &choice);
    Ok((sides.search.back_lines().len(), 0))
}

fn lent_choice(sides: &Sides, buffers: &[Vec<u16>]) -> Result<Vec<u16>, u64> {
    let choice = buffers[1][..sides.network.lines.len()].to_vec();
    if sides.has_form(&choice) && sides.is_aligned(&choice) {
        Ok(choice)
    } else {
        Err(8)
    }
}

fn next(sides: &Sides, buffers: &mut [Vec<u16>]) -> Result<(usize, usize), u64> {
    let choice = lent_choice(sides, buffers)?;
    let later = sides.next(&choice).ok_or(9_u64)?;
    fill(&mut buffers[1], &later);
    Ok((sides.search.back_lines().len(), 0))
}

fn draw(sides: &Sides, buffers: &mut [Vec<u16>]) -> Result<(usize, usize), u64> {
    let choice = lent_choice(sides, buffers)?;
    handed_out(&Drawing::of(sides, &choice), buffers)
}

/// A drawing as draw hands it out, or 10.
pub fn handed_out(drawing: &Drawing, buffers: &mut [Vec<u16>]) -> Result<(usize, usize), u64> {
    if !drawing.sum_is_two() {
        return Err(10);
    }
    write_out(drawing, buffers);
    Ok((drawing.sizes.len(), 0))
}

pub fn write_out(drawing: &Drawing, buffers: &mut [Vec<u16>]) {
    fill(&mut buffers[2], &narrow(&drawing.order.concat()));
    fill(&mut buffers[3], &narrow(&drawing.mesh));
    fill(&mut buffers[4], &narrow(&drawing.sizes));
}
