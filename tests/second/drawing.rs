//! The clockwise order and the meshes of docs/RULES.md: the order is put together as the rule says
//! it, the meshes are found by walking.

use crate::sides::{Sides, LEFT, RIGHT};

pub struct Drawing {
    /// For each vertex its lines clockwise.
    pub order: Vec<Vec<usize>>,
    /// For each direction the number of its mesh.
    pub mesh: Vec<usize>,
    /// For each mesh the number of different lines on it.
    pub sizes: Vec<usize>,
}

impl Drawing {
    pub fn of(sides: &Sides, choice: &[u16]) -> Drawing {
        Drawing::with_order(sides, clockwise_order(sides, choice))
    }

    /// With the meshes that follow from this order, be it of a choice or not.
    pub fn with_order(sides: &Sides, order: Vec<Vec<usize>>) -> Drawing {
        let (mesh, sizes) = meshes(sides, &order);
        Drawing { order, mesh, sizes }
    }

    /// Whether vertices − lines + meshes is 2.
    pub fn sum_is_two(&self) -> bool {
        self.order.len() + self.sizes.len() == self.mesh.len() / 2 + 2
    }
}

/// The side of a leaving line: a tree line takes it from its return with the highest end.
fn side_of(sides: &Sides, choice: &[u16], line: usize) -> u16 {
    if sides.search.back[line] {
        return choice[line];
    }
    let returns = &sides.returns.of[line];
    let Some(highest) = returns
        .iter()
        .map(|&back| sides.search.end_height(back))
        .max()
    else {
        return RIGHT;
    };
    let lowest_number = returns
        .iter()
        .copied()
        .filter(|&back| sides.search.end_height(back) == highest)
        .min();
    choice[lowest_number.expect("a highest end is the end of some return")]
}

/// Whether the returns of a line end at more than one height.
fn has_more_heights(sides: &Sides, line: usize) -> bool {
    let low = sides.returns.low[line];
    sides.returns.of[line]
        .iter()
        .any(|&back| sides.search.end_height(back) != low)
}

/// The lines leaving a vertex clockwise: first the left ones against the nesting, then the right
/// ones along it.
fn leaving_clockwise(sides: &Sides, choice: &[u16], vertex: usize) -> Vec<usize> {
    let mut nesting = sides.search.leaving(vertex);
    nesting.sort_by_key(|&line| (sides.returns.low[line], has_more_heights(sides, line), line));
    let is_left = |line: &usize| side_of(sides, choice, *line) == LEFT;
    let mut clockwise: Vec<usize> = nesting.iter().copied().filter(is_left).collect();
    clockwise.reverse();
    clockwise.extend(nesting.iter().copied().filter(|line| !is_left(line)));
    clockwise
}

/// The back lines in the order in which the walk over the tree comes upon them.
fn discovery(sides: &Sides, leaving: &[Vec<usize>]) -> Vec<usize> {
    let mut discovered = Vec::new();
    let mut to_take: Vec<usize> = leaving[0].iter().rev().copied().collect();
    while let Some(line) = to_take.pop() {
        if sides.search.back[line] {
            discovered.push(line);
        } else {
            to_take.extend(leaving[sides.search.end[line]].iter().rev());
        }
    }
    discovered
}

fn clockwise_order(sides: &Sides, choice: &[u16]) -> Vec<Vec<usize>> {
    let search = &sides.search;
    let vertices = sides.network.vertices;
    let leaving: Vec<Vec<usize>> = (0..vertices)
        .map(|vertex| leaving_clockwise(sides, choice, vertex))
        .collect();
    let discovered = discovery(sides, &leaving);
    let mut order = Vec::new();
    for vertex in 0..vertices {
        let mut clockwise: Vec<usize> = search.parent[vertex].into_iter().collect();
        for &line in &leaving[vertex] {
            let incoming = |side: u16| {
                let comes_in = move |&back: &usize| {
                    !search.back[line]
                        && search.end[back] == vertex
                        && search.on_path[search.start[back]][search.end[line]]
                        && choice[back] == side
                };
                discovered.iter().rev().copied().filter(comes_in)
            };
            clockwise.extend(incoming(LEFT));
            clockwise.push(line);
            clockwise.extend(incoming(RIGHT));
        }
        order.push(clockwise);
    }
    order
}

fn meshes(sides: &Sides, order: &[Vec<usize>]) -> (Vec<usize>, Vec<usize>) {
    let lines = sides.network.lines.len();
    if lines == 0 {
        return (Vec::new(), vec![0]);
    }
    let unnumbered = usize::MAX;
    let mut mesh = vec![unnumbered; 2 * lines];
    let mut sizes = Vec::new();
    for lowest in 0..2 * lines {
        if mesh[lowest] != unnumbered {
            continue;
        }
        let mut on_mesh = vec![false; lines];
        let mut direction = lowest;
        while mesh[direction] == unnumbered {
            mesh[direction] = sizes.len();
            on_mesh[direction / 2] = true;
            direction = following(sides, order, direction);
        }
        sizes.push(on_mesh.iter().filter(|&&on| on).count());
    }
    (mesh, sizes)
}

/// The direction that a walk takes after this one: its line stands clockwise beside the one just used.
fn following(sides: &Sides, order: &[Vec<usize>], direction: usize) -> usize {
    let line = direction / 2;
    let (first, second) = sides.network.lines[line];
    let arrived = if direction % 2 == 0 { second } else { first };
    let around = &order[arrived];
    let place = around
        .iter()
        .position(|&other| other == line)
        .expect("a line is in the order of both its ends");
    let next = around[(place + 1) % around.len()];
    if sides.network.lines[next].0 == arrived {
        2 * next
    } else {
        2 * next + 1
    }
}
