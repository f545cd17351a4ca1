//! The rules of docs/RULES.md on networks, the search, heights and returns, written as they are
//! said and with no regard to speed. Nothing here is shared with the library, nor with its method.

pub const MOST_VERTICES: u64 = 512;
pub const MOST_LINES: usize = 2048;

#[derive(Clone, Debug, PartialEq)]
pub struct Network {
    pub vertices: usize,
    pub lines: Vec<(usize, usize)>,
}

impl Network {
    /// The network of a list of ends of even length.
    pub fn of_ends(vertices: usize, ends: &[u16]) -> Network {
        let lines = ends
            .chunks(2)
            .map(|pair| (pair[0] as usize, pair[1] as usize))
            .collect();
        Network { vertices, lines }
    }

    pub fn ends(&self) -> Vec<u16> {
        self.lines
            .iter()
            .flat_map(|&(first, second)| [first as u16, second as u16])
            .collect()
    }

    /// The first of the refusals 4, 5 and 6 that applies.
    pub fn refusal(&self) -> Option<u64> {
        if self
            .lines
            .iter()
            .any(|&(first, second)| first.max(second) >= self.vertices)
        {
            return Some(4);
        }
        if self.has_equal_ends() || self.has_a_pair_twice() {
            return Some(5);
        }
        if !self.is_connected() {
            return Some(6);
        }
        None
    }

    fn has_equal_ends(&self) -> bool {
        self.lines.iter().any(|&(first, second)| first == second)
    }

    fn has_a_pair_twice(&self) -> bool {
        self.lines
            .iter()
            .enumerate()
            .any(|(number, &(first, second))| {
                self.lines[..number]
                    .iter()
                    .any(|&earlier| earlier == (first, second) || earlier == (second, first))
            })
    }

    /// Spreads from vertex 0 over the whole list of lines until a round finds nothing new.
    pub fn is_connected(&self) -> bool {
        let mut reached = vec![false; self.vertices];
        reached[0] = true;
        let mut found_one = true;
        while found_one {
            found_one = false;
            for &(first, second) in &self.lines {
                if reached[first] != reached[second] {
                    reached[first] = true;
                    reached[second] = true;
                    found_one = true;
                }
            }
        }
        reached.iter().all(|&vertex_reached| vertex_reached)
    }

    pub fn other_end(&self, line: usize, vertex: usize) -> usize {
        let (first, second) = self.lines[line];
        if first == vertex {
            second
        } else {
            first
        }
    }

    fn touches(&self, line: usize, vertex: usize) -> bool {
        let (first, second) = self.lines[line];
        first == vertex || second == vertex
    }
}

/// What the search says of a well-formed network.
pub struct Search {
    /// For each line whether it is a back line.
    pub back: Vec<bool>,
    /// For each line the vertex that it leaves, as the search directs it.
    pub start: Vec<usize>,
    /// For each line the vertex that it comes in to.
    pub end: Vec<usize>,
    /// For each vertex the tree line that found it; vertex 0 has none.
    pub parent: Vec<Option<usize>>,
    pub height: Vec<usize>,
    /// `on_path[v][w]`: w is on the tree path from v to vertex 0 (v itself is).
    pub on_path: Vec<Vec<bool>>,
}

impl Search {
    pub fn of(network: &Network) -> Search {
        let lines = network.lines.len();
        let mut search = Search {
            back: vec![false; lines],
            start: vec![0; lines],
            end: vec![0; lines],
            parent: vec![None; network.vertices],
            height: Vec::new(),
            on_path: Vec::new(),
        };
        let mut used = vec![false; lines];
        let mut found = vec![false; network.vertices];
        found[0] = true;
        // the vertices from vertex 0 to the one where the search stands
        let mut path = vec![0];
        while let Some(&here) = path.last() {
            let Some(line) = (0..lines).find(|&line| !used[line] && network.touches(line, here))
            else {
                path.pop();
                continue;
            };
            let there = network.other_end(line, here);
            used[line] = true;
            search.start[line] = here;
            search.end[line] = there;
            search.back[line] = found[there];
            if !found[there] {
                found[there] = true;
                search.parent[there] = Some(line);
                path.push(there);
            }
        }
        for vertex in 0..network.vertices {
            search.climb_down(vertex);
        }
        search
    }

    fn climb_down(&mut self, vertex: usize) {
        let mut on_path = vec![false; self.parent.len()];
        let mut here = vertex;
        let mut height = 0;
        on_path[here] = true;
        while let Some(line) = self.parent[here] {
            here = self.start[line];
            on_path[here] = true;
            height += 1;
        }
        self.height.push(height);
        self.on_path.push(on_path);
    }

    pub fn back_lines(&self) -> Vec<usize> {
        (0..self.back.len())
            .filter(|&line| self.back[line])
            .collect()
    }

    pub fn leaving(&self, vertex: usize) -> Vec<usize> {
        (0..self.back.len())
            .filter(|&line| self.start[line] == vertex)
            .collect()
    }

    fn strictly_below(&self, lower: usize, upper: usize) -> bool {
        lower != upper && self.on_path[upper][lower]
    }

    fn is_return(&self, back_line: usize, line: usize) -> bool {
        let starts_there = if self.back[line] {
            back_line == line
        } else {
            self.on_path[self.start[back_line]][self.end[line]]
        };
        starts_there && self.strictly_below(self.end[back_line], self.start[line])
    }

    /// The height at which a back line ends.
    pub fn end_height(&self, back_line: usize) -> usize {
        self.height[self.end[back_line]]
    }
}

/// The returns of every line and its low.
pub struct Returns {
    pub of: Vec<Vec<usize>>,
    pub low: Vec<usize>,
}

impl Returns {
    pub fn of(search: &Search) -> Returns {
        let back_lines = search.back_lines();
        let mut returns = Returns {
            of: Vec::new(),
            low: Vec::new(),
        };
        for line in 0..search.back.len() {
            let own: Vec<usize> = back_lines
                .iter()
                .copied()
                .filter(|&back| search.is_return(back, line))
                .collect();
            let lowest = own.iter().map(|&back| search.end_height(back)).min();
            returns
                .low
                .push(lowest.unwrap_or(search.height[search.start[line]]));
            returns.of.push(own);
        }
        returns
    }
}
