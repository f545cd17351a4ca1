//! Networks to try: every small one, random ones of many shapes, and the shapes at the limits.

use crate::random::Random;
use crate::rules::Network;

fn network(vertices: usize, lines: Vec<(usize, usize)>) -> Network {
    Network { vertices, lines }
}

fn all_pairs(vertices: usize) -> Vec<(usize, usize)> {
    (0..vertices)
        .flat_map(|first| (first + 1..vertices).map(move |second| (first, second)))
        .collect()
}

/// How many labelled networks there are on so many vertices, connected or not.
pub fn labelled_count(vertices: usize) -> usize {
    1 << all_pairs(vertices).len()
}

/// The labelled network whose lines are the binary digits of the number.
pub fn labelled(vertices: usize, number: usize) -> Network {
    let pairs = all_pairs(vertices).into_iter().enumerate();
    network(
        vertices,
        pairs
            .filter(|(place, _)| number >> place & 1 == 1)
            .map(|(_, pair)| pair)
            .collect(),
    )
}

/// The same lines in another numbering, each with its ends in an order of its own.
pub fn renumbered_lines(mut from: Network, random: &mut Random) -> Network {
    random.shuffle(&mut from.lines);
    for line in &mut from.lines {
        if random.coin() {
            *line = (line.1, line.0);
        }
    }
    from
}

/// The same network with other numbers for lines and vertices.
pub fn renumbered(from: Network, random: &mut Random) -> Network {
    let mut numbers: Vec<usize> = (0..from.vertices).collect();
    random.shuffle(&mut numbers);
    let lines = from
        .lines
        .iter()
        .map(|&(first, second)| (numbers[first], numbers[second]))
        .collect();
    renumbered_lines(network(from.vertices, lines), random)
}

pub fn complete(vertices: usize) -> Network {
    network(vertices, all_pairs(vertices))
}

pub fn complete_in_two_parts(first_part: usize, second_part: usize) -> Network {
    let to_second =
        |first| (first_part..first_part + second_part).map(move |second| (first, second));
    network(
        first_part + second_part,
        (0..first_part).flat_map(to_second).collect(),
    )
}

pub fn path(vertices: usize) -> Network {
    network(
        vertices,
        (1..vertices).map(|vertex| (vertex - 1, vertex)).collect(),
    )
}

pub fn circle(vertices: usize) -> Network {
    let mut circle = path(vertices);
    circle.lines.push((vertices - 1, 0));
    circle
}

pub fn star(vertices: usize) -> Network {
    network(vertices, (1..vertices).map(|vertex| (0, vertex)).collect())
}

pub fn wheel(vertices: usize) -> Network {
    let mut wheel = circle(vertices - 1);
    wheel
        .lines
        .extend((0..vertices - 1).map(|vertex| (vertices - 1, vertex)));
    network(vertices, wheel.lines)
}

pub fn grid(rows: usize, columns: usize) -> Network {
    let mut lines = Vec::new();
    for row in 0..rows {
        for column in 0..columns {
            let vertex = row * columns + column;
            if column + 1 < columns {
                lines.push((vertex, vertex + 1));
            }
            if row + 1 < rows {
                lines.push((vertex, vertex + columns));
            }
        }
    }
    network(rows * columns, lines)
}

/// A ladder closed to a circle with a twist, which no plane holds from three rungs on.
pub fn twisted_ladder(rungs: usize) -> Network {
    let mut ladder = circle(2 * rungs);
    ladder
        .lines
        .extend((0..rungs).map(|vertex| (vertex, vertex + rungs)));
    ladder
}

/// Two triangles on one line: the network with four aligned choices that tells the alignment by
/// returns from any stricter one.
pub fn two_triangles() -> Network {
    network(4, vec![(0, 1), (1, 2), (2, 0), (1, 3), (3, 0)])
}

/// Puts vertices on random lines until there are so many.
pub fn subdivided(mut from: Network, vertices: usize, random: &mut Random) -> Network {
    while from.vertices < vertices {
        let line = random.below(from.lines.len());
        let (first, second) = from.lines[line];
        from.lines[line] = (first, from.vertices);
        from.lines.push((from.vertices, second));
        from.vertices += 1;
    }
    from
}

pub fn random_tree(vertices: usize, random: &mut Random) -> Network {
    network(
        vertices,
        (1..vertices)
            .map(|vertex| (random.below(vertex), vertex))
            .collect(),
    )
}

fn joins(from: &Network, first: usize, second: usize) -> bool {
    from.lines.contains(&(first, second)) || from.lines.contains(&(second, first))
}

/// Adds so many random lines between vertices that none joins yet, or as many as there is room for.
pub fn with_lines_added(mut from: Network, count: usize, random: &mut Random) -> Network {
    let room = all_pairs(from.vertices).len() - from.lines.len();
    for _ in 0..count.min(room) {
        loop {
            let (first, second) = (random.below(from.vertices), random.below(from.vertices));
            if first != second && !joins(&from, first, second) {
                from.lines.push((first, second));
                break;
            }
        }
    }
    from
}

/// Takes out random lines; one whose loss would leave the network unconnected stays where asked.
pub fn with_lines_removed(
    mut from: Network,
    count: usize,
    keep_connected: bool,
    random: &mut Random,
) -> Network {
    for _ in 0..count.min(from.lines.len()) {
        let place = random.below(from.lines.len());
        let line = from.lines.swap_remove(place);
        if keep_connected && !from.is_connected() {
            from.lines.push(line);
        }
    }
    from
}

/// A network in the plane all of whose meshes are triangles: vertices are put into random
/// triangles, then random lines are turned to be the other diagonal of their two triangles.
pub fn triangulation(vertices: usize, turns: usize, random: &mut Random) -> Network {
    let mut triangles = vec![[0, 1, 2], [0, 1, 2]];
    let mut planar = complete(3);
    for vertex in 3..vertices {
        let place = random.below(triangles.len());
        let corners = triangles.swap_remove(place);
        for left_out in 0..3 {
            let mut triangle = corners;
            triangle[left_out] = vertex;
            triangles.push(triangle);
            planar.lines.push((corners[left_out], vertex));
        }
    }
    planar.vertices = vertices;
    for _ in 0..turns {
        let line = random.below(planar.lines.len());
        turn_diagonal(&mut planar, &mut triangles, line);
    }
    planar
}

fn turn_diagonal(planar: &mut Network, triangles: &mut [[usize; 3]], line: usize) {
    let (first, second) = planar.lines[line];
    let beside: Vec<usize> = (0..triangles.len())
        .filter(|&place| triangles[place].contains(&first) && triangles[place].contains(&second))
        .collect();
    let tip = |place: usize| {
        triangles[place]
            .into_iter()
            .find(|&corner| corner != first && corner != second)
    };
    let (one_tip, other_tip) = match (tip(beside[0]), tip(beside[1])) {
        (Some(one_tip), Some(other_tip)) => (one_tip, other_tip),
        _ => return,
    };
    if one_tip == other_tip || joins(planar, one_tip, other_tip) {
        return;
    }
    planar.lines[line] = (one_tip, other_tip);
    triangles[beside[0]] = [one_tip, other_tip, first];
    triangles[beside[1]] = [one_tip, other_tip, second];
}

/// A circle with chords that do not cross, each tried at random.
pub fn circle_with_chords(vertices: usize, tries: usize, random: &mut Random) -> Network {
    let mut chorded = circle(vertices);
    for _ in 0..tries {
        let (first, second) = (random.below(vertices), random.below(vertices));
        let (low, high) = (first.min(second), first.max(second));
        let inside = |vertex: usize| low < vertex && vertex < high;
        let outside = |vertex: usize| vertex < low || high < vertex;
        let crosses = |&(one, other): &(usize, usize)| {
            inside(one) && outside(other) || outside(one) && inside(other)
        };
        if low != high && !joins(&chorded, low, high) && !chorded.lines.iter().any(crosses) {
            chorded.lines.push((low, high));
        }
    }
    chorded
}

/// Circles hung on one another at single vertices: each can be turned alone, so there are two to
/// the power of the circles of aligned choices.
pub fn hung_circles(circles: usize, random: &mut Random) -> Network {
    let mut hung = network(1, Vec::new());
    for _ in 0..circles {
        let at = random.below(hung.vertices);
        let added = random.between(2, 3);
        let mut before = at;
        for vertex in hung.vertices..hung.vertices + added {
            hung.lines.push((before, vertex));
            before = vertex;
        }
        hung.lines.push((before, at));
        hung.vertices += added;
    }
    hung
}

/// Two networks side by side in one numbering, with nothing between them.
pub fn side_by_side(first: Network, second: Network) -> Network {
    let mut lines = first.lines;
    lines.extend(
        second
            .lines
            .iter()
            .map(|&(one, other)| (one + first.vertices, other + first.vertices)),
    );
    network(first.vertices + second.vertices, lines)
}
