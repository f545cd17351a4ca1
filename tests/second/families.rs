//! The families of networks and calls that a run goes through, each in its kinds.

use crate::calls::{Call, Request};
use crate::kinds::{Kind, Make};
use crate::malformed;
use crate::networks::*;
use crate::random::Random;
use crate::requests::Effort;
use crate::rules::Network;

const WHOLE: Effort = Effort {
    walk: 5000,
    draws: 4,
    wrong: 8,
};
const MEDIUM: Effort = Effort {
    walk: 64,
    draws: 4,
    wrong: 8,
};
const LARGE: Effort = Effort {
    walk: 6,
    draws: 1,
    wrong: 4,
};
const LONG_WALK: Effort = Effort {
    walk: 2100,
    draws: 40,
    wrong: 8,
};

type Shape = (&'static str, fn(&mut Random) -> Network);

/// All kinds, the small families first.
pub fn all() -> Vec<Kind> {
    let mut kinds = named();
    kinds.extend(texts());
    kinds.push(calls("lengths", "", 60, |_, wanted, random| {
        malformed::buffer_lengths(wanted, random)
    }));
    kinds.extend(damaged());
    kinds.push(networks("hung-circles", "", 6, circles, LONG_WALK));
    kinds.extend(in_two_numberings("large", &LARGEST, 1, LARGE));
    kinds.extend(in_two_numberings("between", &BETWEEN, 3, LARGE));
    kinds.extend(up_to_five());
    kinds.extend(in_two_numberings("shapes", &SHAPES, 20, MEDIUM));
    kinds.extend(no_plane());
    for (family, count, make) in [
        ("unconnected", 60, unconnected as fn(&mut Random) -> Network),
        ("six", 3000, six),
        ("sparse", 400, sparse),
        ("dense", 400, dense),
        ("planar", 500, planar),
        ("planar-and-more", 300, planar_and_more),
        ("chords", 300, chords),
    ] {
        let effort = if family == "six" { WHOLE } else { MEDIUM };
        kinds.push(networks(family, "", count, make, effort));
    }
    kinds
}

fn networks(
    family: &'static str,
    name: &str,
    count: usize,
    make: fn(&mut Random) -> Network,
    effort: Effort,
) -> Kind {
    let make = Make::Networks(Box::new(move |_, random| make(random)), effort);
    Kind::new(family, name, count, make)
}

fn calls(
    family: &'static str,
    name: &str,
    count: usize,
    make: impl Fn(usize, &[Call], &mut Random) -> Vec<Request> + 'static,
) -> Kind {
    Kind::new(family, name, count, Make::Calls(Box::new(make)))
}

/// Each shape twice: with its vertices and lines numbered as it is made, and renumbered.
fn in_two_numberings(
    family: &'static str,
    shapes: &[Shape],
    count: usize,
    effort: Effort,
) -> Vec<Kind> {
    let as_made = shapes
        .iter()
        .map(|&(name, make)| networks(family, name, count, make, effort));
    let again = shapes.iter().map(|&(name, make)| {
        let make = Box::new(move |_, random: &mut Random| renumbered(make(random), random));
        let name = format!("{name}-renumbered");
        Kind::new(family, &name, count, Make::Networks(make, effort))
    });
    as_made.chain(again).collect()
}

/// Networks that docs/RULES.md speaks of, numbered as there, and some that tell slips apart.
fn named() -> Vec<Kind> {
    let shapes: [Shape; 12] = [
        ("vertex", |_| complete(1)),
        ("line", |_| complete(2)),
        ("triangle", |_| Network::of_ends(3, &[0, 1, 1, 2, 2, 0])),
        ("k4", |_| {
            Network::of_ends(4, &[0, 1, 1, 2, 2, 3, 3, 0, 3, 1, 2, 0])
        }),
        ("k5", |_| complete(5)),
        ("k33", |_| complete_in_two_parts(3, 3)),
        ("k5-less-a-line", |_| {
            let mut less = complete(5);
            less.lines.pop();
            less
        }),
        ("line-and-vertex", |_| Network::of_ends(3, &[0, 1])),
        ("two-triangles", |_| two_triangles()),
        ("strict-returns", |_| {
            Network::of_ends(5, &[0, 2, 4, 1, 3, 1, 3, 0, 0, 4, 1, 0, 4, 3, 1, 2, 4, 2])
        }),
        ("k4-by-pairs", |_| complete(4)),
        ("highest-free", |_| {
            Network::of_ends(5, &[0, 1, 1, 2, 2, 3, 3, 4, 3, 1, 4, 1, 4, 0])
        }),
    ];
    shapes
        .iter()
        .map(|&(name, make)| networks("named", name, 1, make, WHOLE))
        .collect()
}

/// Every labelled network up to five vertices, first as it is and then in other numberings.
fn up_to_five() -> Vec<Kind> {
    let family = |vertices: usize| {
        let all = labelled_count(vertices);
        let as_made = move |number: usize, _: &mut Random| labelled(vertices, number % all);
        let again = move |number: usize, random: &mut Random| {
            renumbered_lines(labelled(vertices, number % all), random)
        };
        let kind = |name: &str, count, make| {
            let name = format!("vertices-{vertices}{name}");
            Kind::new("up-to-five", &name, count, Make::Networks(make, WHOLE))
        };
        [
            kind("", all, Box::new(as_made)),
            kind("-renumbered", 3 * all, Box::new(again)),
        ]
    };
    (1..=5).flat_map(family).collect()
}

fn six(random: &mut Random) -> Network {
    let network = labelled(6, random.below(labelled_count(6)));
    renumbered_lines(network, random)
}

fn sparse(random: &mut Random) -> Network {
    let vertices = random.between(2, 40);
    let added = random.below(8);
    let tree = random_tree(vertices, random);
    renumbered(with_lines_added(tree, added, random), random)
}

fn dense(random: &mut Random) -> Network {
    let vertices = random.between(5, 14);
    let added = random.between(vertices / 2, 2 * vertices);
    let tree = random_tree(vertices, random);
    renumbered(with_lines_added(tree, added, random), random)
}

fn planar(random: &mut Random) -> Network {
    let vertices = random.between(4, 50);
    let turns = random.below(2 * vertices);
    let whole = triangulation(vertices, turns, random);
    let removed = random.below(2 * vertices);
    renumbered(with_lines_removed(whole, removed, true, random), random)
}

fn planar_and_more(random: &mut Random) -> Network {
    let network = planar(random);
    let added = random.between(1, 2);
    renumbered_lines(with_lines_added(network, added, random), random)
}

fn chords(random: &mut Random) -> Network {
    let vertices = random.between(3, 40);
    let tries = random.below(3 * vertices);
    renumbered(circle_with_chords(vertices, tries, random), random)
}

const SHAPES: [Shape; 6] = [
    ("path", |random| path(random.between(4, 24))),
    ("star", |random| star(random.between(4, 24))),
    ("wheel", |random| wheel(random.between(4, 24))),
    ("grid", |random| {
        grid(random.between(2, 5), random.between(2, 12))
    }),
    ("circle", |random| circle(random.between(4, 24))),
    ("k2-and-more", |random| {
        complete_in_two_parts(2, random.between(4, 24))
    }),
];

fn no_plane() -> Vec<Kind> {
    let shapes: [Shape; 3] = [
        ("k5", |random| {
            let vertices = random.between(6, 60);
            renumbered(subdivided(complete(5), vertices, random), random)
        }),
        ("k33", |random| {
            let vertices = random.between(6, 60);
            let k33 = complete_in_two_parts(3, 3);
            renumbered(subdivided(k33, vertices, random), random)
        }),
        ("twisted-ladder", |random| {
            renumbered(twisted_ladder(random.between(3, 30)), random)
        }),
    ];
    shapes
        .iter()
        .map(|&(name, make)| networks("no-plane", name, 67, make, MEDIUM))
        .collect()
}

fn unconnected(random: &mut Random) -> Network {
    let first = sparse(random);
    let second = if random.coin() {
        planar(random)
    } else {
        complete(1)
    };
    renumbered(side_by_side(first, second), random)
}

fn circles(random: &mut Random) -> Network {
    let count = random.between(8, 11);
    renumbered(hung_circles(count, random), random)
}

/// The shapes at the limits of 512 vertices and 2,048 lines.
const LARGEST: [Shape; 17] = [
    ("path", |_| path(512)),
    ("star", |_| star(512)),
    ("wheel", |_| wheel(512)),
    ("grid", |_| grid(16, 32)),
    ("ladder", |_| grid(2, 256)),
    ("twisted-ladder", |_| twisted_ladder(256)),
    ("65-vertices-2048-lines", |random| {
        with_lines_removed(complete(65), 32, false, random)
    }),
    ("triangles", |random| triangulation(512, 0, random)),
    ("triangles-turned", |random| {
        triangulation(512, 1500, random)
    }),
    ("triangles-less-lines", |random| {
        let whole = triangulation(512, 700, random);
        with_lines_removed(whole, 600, true, random)
    }),
    ("k2-and-510", |_| complete_in_two_parts(2, 510)),
    ("k5-subdivided", |random| {
        subdivided(complete(5), 512, random)
    }),
    ("k33-subdivided", |random| {
        subdivided(complete_in_two_parts(3, 3), 512, random)
    }),
    ("512-vertices-2048-lines", |random| {
        let tree = random_tree(512, random);
        with_lines_added(tree, 2048 - 511, random)
    }),
    ("hung-circles", |random| hung_circles(170, random)),
    ("chords", |random| circle_with_chords(512, 6000, random)),
    ("triangles-and-a-line", |random| {
        let whole = triangulation(512, 300, random);
        with_lines_added(whole, 1, random)
    }),
];

/// Shapes of every size between the small ones and those at the limits.
const BETWEEN: [Shape; 3] = [
    ("tree-and-more", |random| {
        let tree = random_tree(random.between(60, 511), random);
        with_lines_added(tree, random.between(0, 20), random)
    }),
    ("triangles-less-lines", |random| {
        let whole = triangulation(random.between(60, 511), 300, random);
        with_lines_removed(whole, random.between(0, 300), true, random)
    }),
    ("twisted-ladder", |random| {
        twisted_ladder(random.between(30, 255))
    }),
];

fn damaged() -> Vec<Kind> {
    let kind = |(name, damage): (String, malformed::Damage)| {
        calls("damaged", &name, 125, move |_, wanted, random| {
            malformed::damaged(damage, wanted, random)
        })
    };
    malformed::damages().into_iter().map(kind).collect()
}

fn texts() -> Vec<Kind> {
    malformed::TEXTS
        .iter()
        .map(|&(name, make)| calls("texts", name, 1, move |_, _, random| make(random)))
        .collect()
}
