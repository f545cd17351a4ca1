//! The fork rule and the choices of docs/RULES.md. Legal and aligned are tested fork by fork, as
//! the rule is said; whether there is a choice, and which come in what order, is found by colouring
//! the graph of all constraints, which is written down pair by pair.

use crate::pairs::Pairs;
use crate::rules::{Network, Returns, Search};

pub const LEFT: u16 = 0;
pub const RIGHT: u16 = 1;
pub const TREE: u16 = 2;

pub const SAME: u16 = 0;
pub const DIFFERENT: u16 = 1;

/// The lines of one group with the sides that they have when the lowest of them is left.
type Group = Vec<(usize, u16)>;

pub struct Sides {
    pub network: Network,
    pub search: Search,
    pub returns: Returns,
    /// For each two lines leaving one vertex: the returns of the first that end strictly higher
    /// than the low of the second, and the other way round. Forks that ask nothing are left out.
    forks: Vec<(Vec<usize>, Vec<usize>)>,
    /// For each tree line its returns that end at its low.
    low_returns: Vec<Vec<usize>>,
    same: Pairs,
    different: Pairs,
    low_same: Pairs,
    /// The groups that every aligned choice turns as one, in the order of their lowest lines, or
    /// nothing where no choice is legal.
    groups: Option<Vec<Group>>,
    /// The smaller groups that a legal choice turns as one.
    legal_groups: Option<Vec<Group>>,
}

impl Sides {
    pub fn of(network: &Network) -> Sides {
        let lines = network.lines.len();
        let search = Search::of(network);
        let returns = Returns::of(&search);
        let mut sides = Sides {
            network: network.clone(),
            forks: forks(&search, &returns),
            low_returns: low_returns(&search, &returns),
            search,
            returns,
            same: Pairs::none(lines),
            different: Pairs::none(lines),
            low_same: Pairs::none(lines),
            groups: None,
            legal_groups: None,
        };
        for (first, second) in &sides.forks {
            sides.same.add_all(first, first);
            sides.same.add_all(second, second);
            sides.different.add_all(first, second);
            sides.different.add_all(second, first);
        }
        for low in &sides.low_returns {
            sides.low_same.add_all(low, low);
        }
        sides.legal_groups = sides.colour(false);
        sides.groups = sides.colour(true);
        let (legal, aligned) = (sides.legal_groups.is_some(), sides.groups.is_some());
        assert_eq!(
            legal, aligned,
            "a network with a legal choice and no aligned one: {network:?}"
        );
        sides
    }

    /// Whether the fork rule has a constraint of this kind on these two back lines.
    pub fn constrains(&self, line: usize, other: usize, kind: u16) -> bool {
        match kind {
            SAME => self.same.has(line, other),
            DIFFERENT => self.different.has(line, other),
            _ => false,
        }
    }

    /// Gives every back line a side from the constraints alone, or nothing where that fails.
    fn colour(&self, with_low_returns: bool) -> Option<Vec<Group>> {
        let back_lines = self.search.back_lines();
        let mut side = vec![TREE; self.network.lines.len()];
        let mut groups = Vec::new();
        for &lowest in &back_lines {
            if side[lowest] != TREE {
                continue;
            }
            side[lowest] = LEFT;
            let mut group = vec![(lowest, LEFT)];
            let mut done = 0;
            while done < group.len() {
                let (line, own) = group[done];
                done += 1;
                for &other in &back_lines {
                    let agrees = self.same.has(line, other)
                        || with_low_returns && self.low_same.has(line, other);
                    for (asked, wanted) in [
                        (agrees, own),
                        (self.different.has(line, other), opposite(own)),
                    ] {
                        if asked && side[other] == TREE {
                            side[other] = wanted;
                            group.push((other, wanted));
                        } else if asked && side[other] != wanted {
                            return None;
                        }
                    }
                }
            }
            group.sort();
            groups.push(group);
        }
        Some(groups)
    }

    pub fn has_a_choice(&self) -> bool {
        self.groups.is_some()
    }

    pub fn group_count(&self) -> usize {
        self.groups.as_ref().map_or(0, Vec::len)
    }

    /// The aligned choice in which exactly the named groups are turned.
    pub fn choice_with(&self, turned: &[bool]) -> Vec<u16> {
        let groups = self
            .groups
            .as_ref()
            .expect("a choice was asked for where none is legal");
        self.turned(groups, turned.iter().copied())
    }

    /// The legal choice, aligned or not, in which the groups are turned as the coin says.
    pub fn legal_choice(&self, coin: impl FnMut() -> bool) -> Vec<u16> {
        let groups = self
            .legal_groups
            .as_ref()
            .expect("a choice was asked for where none is legal");
        self.turned(groups, std::iter::repeat_with(coin))
    }

    fn turned(&self, groups: &[Group], turns: impl Iterator<Item = bool>) -> Vec<u16> {
        let mut choice = vec![TREE; self.network.lines.len()];
        for (group, turn) in groups.iter().zip(turns) {
            for &(line, side) in group {
                choice[line] = if turn { opposite(side) } else { side };
            }
        }
        choice
    }

    /// The aligned choice after this one. Two choices first differ at the lowest line of the lowest
    /// group in which they differ, so the groups count up like digits, the first the heaviest.
    pub fn next(&self, choice: &[u16]) -> Option<Vec<u16>> {
        let groups = self.groups.as_ref()?;
        let mut turned: Vec<bool> = groups
            .iter()
            .map(|group| choice[group[0].0] == RIGHT)
            .collect();
        let rising = turned.iter().rposition(|&turn| !turn)?;
        turned[rising] = true;
        turned[rising + 1..].fill(false);
        Some(self.choice_with(&turned))
    }

    pub fn is_legal(&self, choice: &[u16]) -> bool {
        self.forks.iter().all(|(first, second)| {
            on_one_side(choice, first)
                && on_one_side(choice, second)
                && (first.is_empty() || second.is_empty() || choice[first[0]] != choice[second[0]])
        })
    }

    pub fn is_aligned(&self, choice: &[u16]) -> bool {
        self.is_legal(choice) && self.low_returns.iter().all(|low| on_one_side(choice, low))
    }

    /// Whether the bytes have the form of a choice: a side at each back line, the tree mark at each
    /// other one.
    pub fn has_form(&self, choice: &[u16]) -> bool {
        (0..choice.len()).all(|line| {
            if self.search.back[line] {
                choice[line] <= 1
            } else {
                choice[line] == TREE
            }
        })
    }

    /// All aligned choices in their order, by trying every choice there is.
    pub fn every_aligned(&self) -> Vec<Vec<u16>> {
        let back_lines = self.search.back_lines();
        (0..1_u64 << back_lines.len())
            .map(|number| self.numbered_choice(number))
            .filter(|choice| self.is_aligned(choice))
            .collect()
    }

    /// The choice whose sides, read as binary digits from the lowest back line on, are the number.
    pub fn numbered_choice(&self, number: u64) -> Vec<u16> {
        let back_lines = self.search.back_lines();
        let mut choice = vec![TREE; self.network.lines.len()];
        for (place, &line) in back_lines.iter().rev().enumerate() {
            choice[line] = if number >> place & 1 == 1 {
                RIGHT
            } else {
                LEFT
            };
        }
        choice
    }
}

fn opposite(side: u16) -> u16 {
    if side == LEFT {
        RIGHT
    } else {
        LEFT
    }
}

fn on_one_side(choice: &[u16], lines: &[usize]) -> bool {
    lines.iter().all(|&line| choice[line] == choice[lines[0]])
}

fn forks(search: &Search, returns: &Returns) -> Vec<(Vec<usize>, Vec<usize>)> {
    let mut forks = Vec::new();
    for vertex in 0..search.height.len() {
        let leaving = search.leaving(vertex);
        for (place, &line) in leaving.iter().enumerate() {
            for &other in &leaving[place + 1..] {
                let first = higher_than(search, &returns.of[line], returns.low[other]);
                let second = higher_than(search, &returns.of[other], returns.low[line]);
                if !first.is_empty() || !second.is_empty() {
                    forks.push((first, second));
                }
            }
        }
    }
    forks
}

fn higher_than(search: &Search, returns: &[usize], low: usize) -> Vec<usize> {
    returns
        .iter()
        .copied()
        .filter(|&back| search.end_height(back) > low)
        .collect()
}

fn low_returns(search: &Search, returns: &Returns) -> Vec<Vec<usize>> {
    let tree_lines = (0..search.back.len()).filter(|&line| !search.back[line]);
    tree_lines
        .map(|line| {
            let own = returns.of[line].iter().copied();
            own.filter(|&back| search.end_height(back) == returns.low[line])
                .collect()
        })
        .collect()
}
