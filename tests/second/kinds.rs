//! Kinds of networks and calls. A run takes from each kind by itself, so that no kind is left out
//! however few it takes, and it says at its end how many of each kind it took.

use crate::calls::{Call, Request, Rules};
use crate::random::Random;
use crate::requests::{on_network, Effort};
use crate::rules::Network;

/// Each makes the calls of one of its networks, from its number and random numbers.
pub struct Kind {
    pub family: &'static str,
    /// The family's name and the kind's own; a family of one kind has no other name for it.
    pub name: String,
    /// How many a run of size 1 has to take from.
    pub count: usize,
    make: Make,
}

pub type MakeNetwork = Box<dyn Fn(usize, &mut Random) -> Network>;
pub type MakeCalls = Box<dyn Fn(usize, &[Call], &mut Random) -> Vec<Request>>;

pub enum Make {
    Networks(MakeNetwork, Effort),
    Calls(MakeCalls),
}

impl Kind {
    pub fn new(family: &'static str, own_name: &str, count: usize, make: Make) -> Kind {
        let name = match own_name {
            "" => family.to_string(),
            _ => format!("{family}/{own_name}"),
        };
        Kind {
            family,
            name,
            count,
            make,
        }
    }

    fn own_name(&self) -> &str {
        self.name
            .split_once('/')
            .map_or("", |(_, own_name)| own_name)
    }

    pub fn requests(
        &self,
        number: usize,
        rules: &mut Rules,
        wanted: &[Call],
        random: &mut Random,
    ) -> Vec<Request> {
        match &self.make {
            Make::Networks(make, effort) => {
                let network = make(number, random);
                on_network(rules, &network, *effort, wanted, random)
            }
            Make::Calls(make) => {
                let mut requests = make(number, wanted, random);
                requests.retain(|request| wanted.contains(&request.call));
                requests
            }
        }
    }
}

/// A run that takes one in so many still takes this many of each kind, or all where there are fewer.
pub const LEAST: usize = 16;

/// Which of `all` things of one kind a run takes: one in `every`, and not fewer than the least. They
/// are drawn by lot and not by a step, which could keep to what its remainder has.
pub fn taken(all: usize, every: usize, random: &mut Random) -> Vec<usize> {
    let mut numbers: Vec<usize> = (0..all).collect();
    let wanted = (all / every + 1).max(LEAST);
    if wanted < all {
        random.shuffle(&mut numbers);
        numbers.truncate(wanted);
        numbers.sort();
    }
    numbers
}

/// How many of each kind a run took, out of how many.
#[derive(Default)]
pub struct Tally {
    /// Family, the kind's own name, taken, all.
    kinds: Vec<(&'static str, String, usize, usize)>,
}

impl Tally {
    pub fn add(&mut self, kind: &Kind, taken: usize, all: usize) {
        self.kinds
            .push((kind.family, kind.own_name().to_string(), taken, all));
    }

    /// A line a family, with each of its kinds.
    pub fn shown(&self) -> String {
        let mut words = String::new();
        let mut family_before = "";
        for (family, own_name, taken, all) in &self.kinds {
            words += match *family == family_before {
                true => ", ",
                false if words.is_empty() => "",
                false => "\n",
            };
            if *family != family_before {
                words += &format!("  {family}: ");
            }
            let space = if own_name.is_empty() { "" } else { " " };
            words += &match taken == all {
                true => format!("{own_name}{space}{all}"),
                false => format!("{own_name}{space}{taken} of {all}"),
            };
            family_before = family;
        }
        words
    }
}
