//! Left is anticlockwise: of each back line of a drawing, the turn of its fundamental cycle, found
//! from the order and the meshes that were handed out and held against the line's side.
//!
//! The cycle goes down the back line and up tree lines to its start again. It parts the meshes: two
//! of them are on one hand of it if one gets from one to the other across lines that are not on it.
//! A mesh lies on the left of its walk, so the mesh of a direction is the one on its left hand. The
//! cycle runs anticlockwise if the outer mesh is not among those on its left hand. The outer mesh
//! has the corner at vertex 0 between the last line of its order and the first: a walk that arrives
//! by the last line goes on by the first, so this is the mesh of the direction that arrives there.
//!
//! Nothing here knows how sides lead to an order; the search is not used either, since the bytes of
//! the choice say which lines are the tree's.

use crate::rules::Network;
use crate::sides::{LEFT, RIGHT, TREE};

/// The vertex that a direction arrives at.
fn arrives(network: &Network, direction: usize) -> usize {
    let (first, second) = network.lines[direction / 2];
    if direction % 2 == 0 {
        second
    } else {
        first
    }
}

/// The direction along the same line the other way.
fn turned_round(direction: usize) -> usize {
    direction ^ 1
}

fn leaves(network: &Network, direction: usize) -> usize {
    arrives(network, turned_round(direction))
}

/// For each vertex the tree direction that arrives at it from below; vertex 0 has none.
fn directions_up(network: &Network, choice: &[u16]) -> Vec<Option<usize>> {
    let mut leaving = vec![Vec::new(); network.vertices];
    for direction in (0..2 * network.lines.len()).filter(|direction| choice[direction / 2] == TREE)
    {
        leaving[leaves(network, direction)].push(direction);
    }
    let mut up = vec![None; network.vertices];
    let mut to_spread = vec![0];
    while let Some(vertex) = to_spread.pop() {
        for &direction in &leaving[vertex] {
            let there = arrives(network, direction);
            if there != 0 && up[there].is_none() {
                up[there] = Some(direction);
                to_spread.push(there);
            }
        }
    }
    up
}

/// The tree directions from one vertex up to another, from above; nothing where none lead there.
fn way_up(
    network: &Network,
    up: &[Option<usize>],
    lower: usize,
    upper: usize,
) -> Option<Vec<usize>> {
    let mut way = Vec::new();
    let mut here = upper;
    while here != lower {
        let direction = up[here]?;
        way.push(direction);
        here = leaves(network, direction);
    }
    Some(way)
}

/// The cycle of a back line: down the line, and up the tree to where it starts.
fn cycle(network: &Network, up: &[Option<usize>], line: usize) -> Option<Vec<usize>> {
    [2 * line, 2 * line + 1].into_iter().find_map(|down| {
        let mut cycle = way_up(network, up, arrives(network, down), leaves(network, down))?;
        cycle.push(down);
        Some(cycle)
    })
}

/// The meshes on the left hand of a cycle.
fn left_hand(mesh: &[u16], walks: &[Vec<usize>], cycle: &[usize]) -> Vec<bool> {
    let mut on_cycle = vec![false; mesh.len() / 2];
    let mut reached = vec![false; walks.len()];
    let mut to_spread = Vec::new();
    for &direction in cycle {
        on_cycle[direction / 2] = true;
        to_spread.push(mesh[direction] as usize);
    }
    while let Some(here) = to_spread.pop() {
        if reached[here] {
            continue;
        }
        reached[here] = true;
        for &direction in walks[here]
            .iter()
            .filter(|&&direction| !on_cycle[direction / 2])
        {
            to_spread.push(mesh[turned_round(direction)] as usize);
        }
    }
    reached
}

/// The mesh that a drawing has on the outside; a lone vertex has no direction on it.
fn outer_mesh(network: &Network, order: &[u16], mesh: &[u16]) -> Option<u16> {
    let ends_at_0 = |&&(first, second): &&(usize, usize)| first == 0 || second == 0;
    let around = network.lines.iter().filter(ends_at_0).count();
    let last = *order[..around].last()? as usize;
    let arriving = match arrives(network, 2 * last) {
        0 => 2 * last,
        _ => 2 * last + 1,
    };
    Some(mesh[arriving])
}

/// A back line whose cycle does not turn as its side says, or nothing where all do.
pub fn turn_fault(
    network: &Network,
    choice: &[u16],
    order: &[u16],
    mesh: &[u16],
) -> Option<String> {
    let up = directions_up(network, choice);
    let meshes = mesh.iter().max().map_or(0, |&last| last as usize + 1);
    let mut walks = vec![Vec::new(); meshes];
    for (direction, &own) in mesh.iter().enumerate() {
        walks[own as usize].push(direction);
    }
    let outer = outer_mesh(network, order, mesh)?;
    for line in (0..network.lines.len()).filter(|&line| choice[line] != TREE) {
        let cycle = match cycle(network, &up, line) {
            Some(cycle) => cycle,
            None => {
                return Some(format!(
                    "neither end of back line {line} is above the other"
                ))
            }
        };
        let left = left_hand(mesh, &walks, &cycle);
        if cycle
            .iter()
            .any(|&direction| left[mesh[turned_round(direction)] as usize])
        {
            return Some(format!("the cycle of line {line} does not part the meshes"));
        }
        let (turn, side) = match left[outer as usize] {
            false => ("anticlockwise", LEFT),
            true => ("clockwise", RIGHT),
        };
        if choice[line] != side {
            return Some(format!(
                "the cycle of line {line} runs {turn}, and its side is {}",
                choice[line]
            ));
        }
    }
    None
}
