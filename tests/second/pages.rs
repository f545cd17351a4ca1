//! The listing program: its page for the texts of each kind, held against the page that the rules
//! give. Which ring is shown is left open, so a ring is tested and not compared.

use crate::calls::{Call, Rules};
use crate::compare::ring_fault;
use crate::drawing::Drawing;
use crate::families;
use crate::kinds::{taken, Kind, Tally};
use crate::random::Random;
use crate::rules::{Network, MOST_LINES, MOST_VERTICES};
use crate::run::Plan;
use crate::sides::Sides;
use crate::text;
use std::io::Write;
use std::process::{Command, Stdio};
use std::sync::Arc;

const MOST_BYTES: usize = 18_450;
const MOST_CHOICES: usize = 64;
const MOST_SHOWN: usize = 5;

enum Page {
    Exactly(String),
    Ring(Arc<Sides>),
}

/// The exit status: 0 where all is as expected, 1 on a difference, 2 where nothing could be compared.
pub fn run(plan: &Plan) -> i32 {
    let (mut compared, mut differences) = (0, 0);
    let mut rules = Rules::new();
    let mut tally = Tally::default();
    for kind in families::all() {
        let inputs = inputs(plan, &kind, &mut rules);
        let mut random = Random::for_kind(plan.seed, &kind.name);
        let taken = taken(inputs.len(), plan.every, &mut random);
        tally.add(&kind, taken.len(), inputs.len());
        for place in taken {
            let (number, input) = &inputs[place];
            compared += 1;
            let fault = match fault_of_page(plan, &mut rules, input) {
                Some(fault) => fault,
                None => continue,
            };
            differences += 1;
            if differences <= MOST_SHOWN {
                println!(
                    "\nDIFFERENCE: {fault}\nthe input, {} bytes:\n{}",
                    input.len(),
                    text::shown(input)
                );
                println!(
                    "again with: --pages --seed {} --only {}:{number}\n",
                    plan.seed, kind.name
                );
            }
            if differences == plan.until {
                return 1;
            }
        }
    }
    if plan.only.is_none() {
        println!("pages of each kind:\n{}", tally.shown());
    }
    println!("{compared} pages compared, {differences} differences");
    match (compared, differences) {
        (0, _) => 2,
        (_, 0) => 0,
        _ => 1,
    }
}

/// All texts of a kind, each with the number of its network: one network may have many damaged ones,
/// and each page is a run of the program, so it is of the texts that a run takes. The room that read
/// is lent beside a text is nothing to the program.
fn inputs(plan: &Plan, kind: &Kind, rules: &mut Rules) -> Vec<(usize, Vec<u16>)> {
    let numbers = match &plan.only {
        Some((name, number)) if *name == kind.name => *number..number + 1,
        Some(_) => 0..0,
        None => 0..kind.count * plan.size,
    };
    let mut inputs = Vec::new();
    for number in numbers {
        let mut random = Random::for_network(plan.seed, &kind.name, number);
        for mut request in kind.requests(number, rules, &[Call::Read], &mut random) {
            inputs.push((number, request.buffers.swap_remove(0)));
        }
    }
    inputs.dedup();
    inputs
}

fn fault_of_page(plan: &Plan, rules: &mut Rules, input: &[u16]) -> Option<String> {
    match printed(plan, input) {
        Some(got) => fault(&page(rules, input), &got),
        None => Some("the program could not be run to its end".to_string()),
    }
}

/// What the program prints on an input. It may end before it has read all of a long one.
fn printed(plan: &Plan, input: &[u16]) -> Option<String> {
    let mut child = Command::new(&plan.command[0])
        .args(&plan.command[1..])
        .stdin(Stdio::piped())
        .stdout(Stdio::piped())
        .spawn()
        .ok()?;
    let bytes: Vec<u8> = input.iter().map(|&byte| byte as u8).collect();
    let mut pipe = child.stdin.take()?;
    let writer = std::thread::spawn(move || {
        let _ = pipe.write_all(&bytes);
    });
    let output = child.wait_with_output().ok()?;
    writer.join().ok()?;
    if !output.status.success() {
        return None;
    }
    String::from_utf8(output.stdout).ok()
}

fn page(rules: &mut Rules, input: &[u16]) -> Page {
    match accepted(input) {
        Err(number) => Page::Exactly(format!("{number:02x}\n")),
        Ok(network) => {
            let sides = rules.sides(&network);
            if sides.has_a_choice() {
                Page::Exactly(list(&sides))
            } else {
                Page::Ring(sides)
            }
        }
    }
}

fn accepted(input: &[u16]) -> Result<Network, u64> {
    if input.len() > MOST_BYTES {
        return Err(1);
    }
    let (vertices, ends) = text::parse(input).ok_or(1_u64)?;
    if vertices == 0 || vertices as u64 > MOST_VERTICES || ends.len() > 2 * MOST_LINES {
        return Err(2);
    }
    let network = Network::of_ends(vertices, &ends);
    network.refusal().map_or(Ok(network), Err)
}

fn list(sides: &Sides) -> String {
    let back_lines = sides.search.back_lines();
    let mut choice = sides.choice_with(&vec![false; sides.group_count()]);
    let drawing = Drawing::of(sides, &choice);
    if !drawing.sum_is_two() {
        return "0a\n".to_string();
    }
    let mut page = format!("00{:04x}{:04x}\n", drawing.sizes.len(), back_lines.len());
    for _ in 0..MOST_CHOICES {
        for &line in &back_lines {
            page += &format!("{:02x}", choice[line]);
        }
        page += "\n";
        match sides.next(&choice) {
            Some(later) => choice = later,
            None => return page + "09\n",
        }
    }
    page + "00\n"
}

fn fault(wanted: &Page, got: &str) -> Option<String> {
    match wanted {
        Page::Exactly(page) if page == got => None,
        Page::Exactly(page) => Some(format!("wanted\n{page}and got\n{got}")),
        Page::Ring(sides) => match ring(got) {
            Some((lines, kinds)) => {
                ring_fault(sides, &lines, &kinds).map(|why| format!("no ring, {why:?}:\n{got}"))
            }
            None => Some(format!("wanted 7 and a ring, and got\n{got}")),
        },
    }
}

/// The lines and kinds of a page that shows a ring, where it is written as it should be.
fn ring(page: &str) -> Option<(Vec<u16>, Vec<u16>)> {
    let steps = page.strip_suffix('\n')?.split('\n').collect::<Vec<_>>();
    let (head, steps) = steps.split_first()?;
    if *head != format!("07{:04x}", steps.len()) {
        return None;
    }
    let mut lines = Vec::new();
    let mut kinds = Vec::new();
    for step in steps {
        let number = u32::from_str_radix(step, 16).ok()?;
        if *step != format!("{number:06x}") {
            return None;
        }
        lines.push((number >> 8) as u16);
        kinds.push((number & 255) as u16);
    }
    Some((lines, kinds))
}
