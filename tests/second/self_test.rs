//! The rules as written in this program, tried on answers that are known from elsewhere. A wrong
//! answer ends the program with the place where it was found.

use crate::calls::{self, returned, Answer, Call, Expected, Request, Rules};
use crate::compare::{difference, ring_fault, RingFault};
use crate::drawing::Drawing;
use crate::families;
use crate::kinds::{taken, LEAST};
use crate::mirror;
use crate::networks::{
    complete, complete_in_two_parts, labelled, labelled_count, renumbered_lines, two_triangles,
};
use crate::random::Random;
use crate::rules::Network;
use crate::sides::{Sides, TREE};
use crate::text;
use crate::turns::turn_fault;

pub fn run() {
    small_trials();
    square_with_diagonals();
    no_plane();
    one_ring_each();
    each_fault_of_a_ring();
    refusals();
    texts();
    every_small_network();
    planar_counts();
    damage_is_seen();
    ten_is_told();
    turns();
    turns_in_the_comparison();
    no_kind_left_out();
    println!("the rules as written here give the known answers");
}

fn k4() -> Sides {
    Sides::of(&Network::of_ends(4, &[0, 1, 1, 2, 2, 3, 3, 0, 3, 1, 2, 0]))
}

/// The aligned choices in order, as letters on the back lines.
fn letters(sides: &Sides) -> Vec<String> {
    let letters_of = |choice: &Vec<u16>| {
        choice
            .iter()
            .filter(|&&side| side < 2)
            .map(|&side| if side == 0 { 'L' } else { 'R' })
            .collect()
    };
    sides.every_aligned().iter().map(letters_of).collect()
}

fn mesh_sizes(sides: &Sides, choice: usize) -> Vec<usize> {
    Drawing::of(sides, &sides.every_aligned()[choice]).sizes
}

fn small_trials() {
    let lone = Sides::of(&complete(1));
    assert_eq!(
        (letters(&lone), mesh_sizes(&lone, 0)),
        (vec![String::new()], vec![0]),
        "P1"
    );
    let line = Sides::of(&complete(2));
    assert_eq!(
        (letters(&line), mesh_sizes(&line, 0)),
        (vec![String::new()], vec![1]),
        "P2"
    );
    let triangle = Sides::of(&Network::of_ends(3, &[0, 1, 1, 2, 2, 0]));
    assert_eq!(
        (letters(&triangle), mesh_sizes(&triangle, 0)),
        (vec!["L".into(), "R".into()], vec![3, 3]),
        "P3"
    );
    assert_eq!(
        letters(&Sides::of(&two_triangles())),
        ["LL", "LR", "RL", "RR"],
        "two triangles on one line"
    );
    let planar = Sides::of(&Network::of_ends(
        5,
        &[0, 2, 4, 1, 3, 1, 3, 0, 0, 4, 1, 0, 4, 3, 1, 2, 4, 2],
    ));
    assert!(
        planar.has_a_choice(),
        "a plane holds nine lines on five vertices"
    );
    let mut less = complete(5);
    less.lines.pop();
    let less = Sides::of(&less);
    assert_eq!(less.search.back_lines(), [1, 2, 3, 5, 6], "P8");
    assert_eq!(letters(&less), ["LLLLR", "LLLRL", "RRRLR", "RRRRL"], "P8");
}

fn square_with_diagonals() {
    let k4 = k4();
    assert_eq!(k4.search.back_lines(), [3, 4, 5], "P4");
    assert_eq!(letters(&k4), ["LLL", "LRL", "RLR", "RRR"], "P4");
    let drawing = Drawing::of(&k4, &[2, 2, 2, 0, 0, 0]);
    assert_eq!(
        drawing.order,
        [[5, 3, 0], [0, 4, 1], [1, 2, 5], [2, 4, 3]],
        "P5"
    );
    let mesh_of = |mesh: usize| {
        (0..12)
            .filter(|&direction| drawing.mesh[direction] == mesh)
            .collect::<Vec<usize>>()
    };
    assert_eq!(
        [mesh_of(0), mesh_of(1), mesh_of(2), mesh_of(3)],
        [[0, 6, 9], [1, 3, 11], [2, 4, 8], [5, 7, 10]],
        "P5"
    );
    assert_eq!(drawing.sizes, [3, 3, 3, 3], "P5");
    assert_eq!(
        k4.next(&[2, 2, 2, 0, 1, 0]),
        Some(vec![2, 2, 2, 1, 0, 1]),
        "P9"
    );
    assert_eq!(k4.next(&[2, 2, 2, 1, 1, 1]), None, "P9");
    assert!(!k4.is_aligned(&[2, 2, 2, 1, 0, 0]), "P10");
}

fn no_plane() {
    let k5 = Sides::of(&complete(5));
    assert!(!k5.has_a_choice(), "P6");
    assert_eq!(ring_fault(&k5, &[5, 6, 8], &[0, 0, 1]), None, "P6");
    assert_eq!(mirror::ring(&k5), (vec![5, 6, 8], vec![0, 0, 1]), "P6");
    let k33 = Sides::of(&complete_in_two_parts(3, 3));
    assert!(!k33.has_a_choice(), "P7");
    assert_eq!(ring_fault(&k33, &[5, 6], &[0, 1]), None, "P7");
    assert_eq!(mirror::ring(&k33), (vec![5, 6], vec![0, 1]), "P7");
}

/// Of all rounds of different back lines, with all kinds, K5 and K3,3 have one ring each.
fn one_ring_each() {
    for (sides, ring) in [
        (Sides::of(&complete(5)), (vec![5, 6, 8], vec![0, 0, 1])),
        (
            Sides::of(&complete_in_two_parts(3, 3)),
            (vec![5, 6], vec![0, 1]),
        ),
    ] {
        let mut rings = Vec::new();
        let mut rounds = vec![Vec::new()];
        while let Some(round) = rounds.pop() {
            for kinds in 0..1 << round.len() {
                let kinds: Vec<u16> = (0..round.len()).map(|step| kinds >> step & 1).collect();
                if ring_fault(&sides, &round, &kinds).is_none() {
                    rings.push((round.clone(), kinds));
                }
            }
            for line in sides.search.back_lines() {
                if !round.contains(&(line as u16)) {
                    rounds.push([round.as_slice(), &[line as u16]].concat());
                }
            }
        }
        assert_eq!(rings, [ring]);
    }
}

/// Each thing that a ring must have, missing where all else is there.
fn each_fault_of_a_ring() {
    let k5 = Sides::of(&complete(5));
    let k33 = Sides::of(&complete_in_two_parts(3, 3));
    let trials: [(&Sides, &[u16], &[u16], RingFault); 11] = [
        (&k5, &[], &[], RingFault::TooShort),
        (&k5, &[5], &[1], RingFault::TooShort),
        (&k5, &[5, 6, 9], &[0, 0, 1], RingFault::NoBackLine),
        (&k5, &[5, 6, 10], &[0, 0, 1], RingFault::NoBackLine),
        (&k33, &[5, 6, 5, 6], &[0, 1, 0, 0], RingFault::LineTwice),
        (&k5, &[5, 6, 8], &[1, 1, 1], RingFault::NoConstraint),
        (&k5, &[5, 6, 8], &[0, 2, 1], RingFault::NoConstraint),
        (&k33, &[5, 6], &[0, 0], RingFault::EvenlyDifferent),
        (&k5, &[6, 8, 5], &[0, 1, 0], RingFault::NotFromTheLowest),
        (&k33, &[5, 6], &[1, 0], RingFault::DifferentFirst),
        (&k5, &[5, 8, 6], &[1, 0, 0], RingFault::ToTheHigherNeighbour),
    ];
    for (sides, lines, kinds, fault) in trials {
        assert_eq!(
            ring_fault(sides, lines, kinds),
            Some(fault),
            "{lines:?} {kinds:?}"
        );
    }
}

fn refusals() {
    let mut rules = Rules::new();
    let mut answer = |vertices: u64, ends: &[u16], lines: usize, heights: usize| {
        let buffers = vec![ends.to_vec(), vec![77; lines], vec![7777; heights]];
        mirror::answer(
            &mut rules,
            &Request {
                call: Call::Orient,
                vertices,
                buffers,
            },
        )
        .returned
    };
    assert_eq!(answer(3, &[0, 1], 1, 3), 6, "P11");
    assert_eq!(answer(513, &[0, 600], 1, 513), 2, "P12");
    assert_eq!(answer(0, &[], 0, 0), 2, "no vertex");
    assert_eq!(answer(2, &[0; 4097], 9000, 2), 2, "2 comes before 3");
    assert_eq!(answer(2, &[0, 1, 0], 9, 2), 3, "an odd list");
    assert_eq!(answer(2, &[5, 5], 0, 2), 3, "3 comes before 4");
    assert_eq!(answer(2, &[0, 1, 5, 5], 2, 2), 4, "4 comes before 5");
    assert_eq!(answer(3, &[0, 1, 1, 0], 2, 3), 5, "5 comes before 6");
    assert_eq!(answer(2, &[0, 1], 1, 1), 3, "short heights");
    assert_eq!(answer(2, &[0, 1], 1, 2), 0, "one line");
    assert_eq!(answer(3, &[0, 1, 1, 2, 2, 0], 3, 3), 256, "one back line");
}

fn texts() {
    let read = |words: &str| text::parse(&words.bytes().map(u16::from).collect::<Vec<u16>>());
    assert_eq!(read("00010000\n"), Some((1, vec![])));
    assert_eq!(read("00020001\n0000000f\n"), Some((2, vec![0, 15])));
    for wrong in [
        "",
        "00010000",
        "00010000\r\n",
        "0001000A\n",
        "00020001\n00000001",
        "00020001\n",
    ] {
        assert_eq!(read(wrong), None, "{wrong:?}");
    }
    assert_eq!(text::shown(&text::of(4, &[0, 171])), "00040001\n000000ab\n");
}

/// On every connected network up to five vertices, in three numberings, all choices are tried.
fn every_small_network() {
    let mut random = Random::new(1);
    for vertices in 1..=5 {
        for number in 0..3 * labelled_count(vertices) {
            let network = renumbered_lines(labelled(vertices, number / 3), &mut random);
            if !network.is_connected() {
                continue;
            }
            let sides = Sides::of(&network);
            let aligned = sides.every_aligned();
            let choices = 1 << sides.search.back_lines().len();
            let legal = (0..choices).any(|choice| sides.is_legal(&sides.numbered_choice(choice)));
            assert_eq!(
                (legal, legal),
                (sides.has_a_choice(), !aligned.is_empty()),
                "{network:?}"
            );
            assert!(
                !legal || aligned.len() == 1 << sides.group_count(),
                "{network:?}"
            );
            for choice in &aligned {
                assert!(
                    Drawing::of(&sides, choice).sum_is_two(),
                    "{choice:?} on {network:?}"
                );
            }
            if !legal {
                let (lines, kinds) = mirror::ring(&sides);
                assert_eq!(ring_fault(&sides, &lines, &kinds), None, "{network:?}");
            }
        }
    }
}

/// The numbers of labelled connected planar networks are known.
fn planar_counts() {
    for (vertices, connected, planar) in [
        (1, 1, 1),
        (2, 1, 1),
        (3, 4, 4),
        (4, 38, 38),
        (5, 728, 727),
        (6, 26_704, 26_013),
    ] {
        let networks = (0..labelled_count(vertices)).map(|number| labelled(vertices, number));
        let networks: Vec<Network> = networks.filter(Network::is_connected).collect();
        let drawable = networks
            .iter()
            .filter(|network| Sides::of(network).has_a_choice())
            .count();
        assert_eq!(
            (networks.len(), drawable),
            (connected, planar),
            "on {vertices} vertices"
        );
    }
}

/// The requests on the networks that docs/RULES.md names.
fn named_requests(rules: &mut Rules) -> Vec<Request> {
    let named = families::all().into_iter();
    named
        .filter(|kind| kind.family == "named")
        .flat_map(|kind| kind.requests(0, rules, &Call::ALL, &mut Random::new(1)))
        .collect()
}

/// The comparison itself: an answer with any one number changed must differ from what is expected.
/// The networks with rings here have one each, so where a number of a ring is changed it must be the
/// test of rings that sees it, and nowhere else.
fn damage_is_seen() {
    let mut rules = Rules::new();
    for request in named_requests(&mut rules) {
        let expected = rules.expected(&request);
        let right = mirror::answer(&mut rules, &request);
        assert_eq!(difference(&request, &expected, &right), None, "{request:?}");
        let has_a_ring = matches!(expected, Expected::Ring(_));
        for wrong in changed(&right) {
            let seen = difference(&request, &expected, &wrong);
            let seen = seen.unwrap_or_else(|| panic!("not seen: {request:?} {wrong:?}"));
            let in_the_ring = has_a_ring && ring_of(&wrong) != ring_of(&right);
            assert_eq!(seen.starts_with("no ring"), in_the_ring, "{seen}");
        }
    }
}

/// The lines and kinds of the ring in an answer of first choice.
fn ring_of(answer: &Answer) -> [&[u16]; 2] {
    let length = (answer.returned >> 32) as usize;
    [2, 3].map(|buffer| &answer.buffers[buffer][..length])
}

/// Draw, lent buffers that are full of marks.
fn draw_request(network: &Network, choice: &[u16]) -> Request {
    let lines = network.lines.len();
    let mut buffers = vec![network.ends(), choice.to_vec()];
    buffers.extend([2 * lines, 2 * lines + 3, 2 * lines + 1].map(|room| vec![7777; room]));
    Request {
        call: Call::Draw,
        vertices: network.vertices as u64,
        buffers,
    }
}

/// The answer that hands out this drawing, be it one or not.
fn handing_out(request: &Request, drawing: &Drawing) -> Answer {
    let mut buffers = request.buffers.clone();
    calls::write_out(drawing, &mut buffers);
    Answer {
        returned: returned(0, drawing.sizes.len(), 0),
        buffers,
    }
}

/// No aligned choice leads to 10. An order that no flat drawing has does: K4 with two lines swapped at
/// one vertex has two meshes. The comparison sees 10 where a drawing is due, a drawing where 10 is
/// due, and a 10 that comes with a count or changes a buffer.
fn ten_is_told() {
    let k4 = k4();
    let choice = [2, 2, 2, 0, 0, 0];
    let request = draw_request(&k4.network, &choice);
    let right = Drawing::of(&k4, &choice);
    let mut order = right.order.clone();
    order[2].swap(1, 2);
    let crossed = Drawing::with_order(&k4, order);
    assert_eq!(crossed.sizes.len(), 2, "K4 with two lines swapped");

    let due = |drawing: &Drawing| {
        let mut buffers = request.buffers.clone();
        let answered = calls::handed_out(drawing, &mut buffers);
        calls::answer(&request, answered, buffers)
    };
    let (drawing, ten) = (due(&right), due(&crossed));
    assert_eq!((drawing.returned, ten.returned), (returned(0, 4, 0), 10));
    assert_eq!(ten.buffers, request.buffers, "10 leaves all as it was");
    let differs = |expected: &Answer, got: &Answer| {
        difference(&request, &Expected::Exactly(expected.clone()), got).is_some()
    };
    assert!(!differs(&drawing, &drawing) && !differs(&ten, &ten));
    assert!(differs(&drawing, &ten), "10 where a drawing is due");
    assert!(differs(&ten, &drawing), "a drawing where 10 is due");
    let not_ten = handing_out(&request, &crossed);
    assert!(differs(&ten, &not_ten), "a crossed drawing where 10 is due");
    for changed in changed(&ten) {
        assert!(differs(&ten, &changed), "{changed:?}");
    }
}

/// The mirror image of a drawing.
fn mirrored(sides: &Sides, drawing: &Drawing) -> Drawing {
    let mut order = drawing.order.clone();
    order.iter_mut().for_each(|around| around.reverse());
    Drawing::with_order(sides, order)
}

fn narrow(values: &[usize]) -> Vec<u16> {
    values.iter().map(|&value| value as u16).collect()
}

fn turned_wrongly(sides: &Sides, choice: &[u16], drawing: &Drawing) -> Option<String> {
    let (order, mesh) = (narrow(&drawing.order.concat()), narrow(&drawing.mesh));
    turn_fault(&sides.network, choice, &order, &mesh)
}

fn other_side(side: u16) -> u16 {
    if side == TREE {
        TREE
    } else {
        1 - side
    }
}

/// What left means is known from a triangle on paper: 0 at the bottom left, 1 to the right of it, 2
/// above it. The cycle 0, 1, 2 runs anticlockwise there, and clockwise at 0 line 2 comes before line
/// 0. Of every drawing of a small network, the turns must keep to the sides; those of its mirror
/// image, and of itself with any side swapped, must not.
fn turns() {
    let triangle = Network::of_ends(3, &[0, 1, 1, 2, 2, 0]);
    let on_paper = |side: u16| {
        let (order, mesh) = ([2, 0, 0, 1, 1, 2], [0, 1, 0, 1, 0, 1]);
        turn_fault(&triangle, &[2, 2, side], &order, &mesh)
    };
    assert_eq!(on_paper(0), None);
    let seen = on_paper(1).expect("the triangle on paper is not right");
    assert!(seen.contains("line 2 runs anticlockwise"), "{seen}");

    let mut random = Random::new(2);
    for number in 0..labelled_count(5) {
        let network = renumbered_lines(labelled(5, number), &mut random);
        if !network.is_connected() {
            continue;
        }
        let sides = Sides::of(&network);
        let back_lines = sides.search.back_lines();
        for choice in sides.every_aligned() {
            let drawing = Drawing::of(&sides, &choice);
            let fault = turned_wrongly(&sides, &choice, &drawing);
            assert_eq!(fault, None, "{choice:?} on {network:?}");
            let mirrored = mirrored(&sides, &drawing);
            let seen = turned_wrongly(&sides, &choice, &mirrored).is_some();
            assert_eq!(seen, !back_lines.is_empty(), "{choice:?} on {network:?}");
            for &line in &back_lines {
                let mut swapped = choice.clone();
                swapped[line] = other_side(choice[line]);
                let seen = turned_wrongly(&sides, &swapped, &drawing).unwrap_or_default();
                let named = seen.contains(&format!("of line {line} runs"));
                assert!(named, "line {line}, {choice:?} on {network:?}");
            }
        }
    }
}

/// Rules and library that both draw mirror images agree with each other, and are told all the same.
fn turns_in_the_comparison() {
    let k4 = k4();
    let choice = [2, 2, 2, 0, 0, 0];
    let request = draw_request(&k4.network, &choice);
    let drawing = Drawing::of(&k4, &choice);
    for (drawing, told) in [(mirrored(&k4, &drawing), true), (drawing, false)] {
        let answer = handing_out(&request, &drawing);
        let seen = difference(&request, &Expected::Exactly(answer.clone()), &answer);
        assert_eq!(seen.is_some(), told, "{seen:?}");
    }
}

/// However few a run takes, it takes of every kind, and the small families whole; and a run that takes
/// more takes these too.
fn no_kind_left_out() {
    for kind in families::all() {
        let mut before: Vec<usize> = (0..kind.count).collect();
        for every in (1..100).chain([1000, usize::MAX]) {
            let mut random = Random::for_kind(1, &kind.name);
            let taken = taken(kind.count, every, &mut random);
            assert!(taken.len() >= kind.count.min(LEAST), "{}", kind.name);
            assert!(taken.windows(2).all(|two| two[0] < two[1]));
            assert!(taken.iter().all(|&number| number < kind.count));
            let small = ["named", "texts", "large", "hung-circles"].contains(&kind.family);
            assert!(!small || taken.len() == kind.count, "{}", kind.name);
            assert!(taken.iter().all(|number| before.contains(number)));
            before = taken;
        }
    }
}

/// The answer with each of its numbers changed in turn.
fn changed(right: &Answer) -> Vec<Answer> {
    let mut answers = Vec::new();
    for bit in [1, returned(0, 1, 0), returned(0, 0, 1)] {
        let mut answer = right.clone();
        answer.returned ^= bit;
        answers.push(answer);
    }
    for buffer in 0..right.buffers.len() {
        for place in 0..right.buffers[buffer].len() {
            let mut answer = right.clone();
            answer.buffers[buffer][place] ^= 1;
            answers.push(answer);
        }
    }
    answers
}
