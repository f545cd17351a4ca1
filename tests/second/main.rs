//! The second program: the rules of docs/RULES.md written a second time, plainly and slowly, and held
//! against the library call by call, number by number. See tests/run for how it is built and started.
//!
//! What the rules say: `rules` (networks, search, returns), `sides` (choices, over `pairs`),
//! `drawing` and `turns`, `text`, and `calls`, which has the numbers and counts. What is tried:
//! `networks`, `malformed` and `requests`, put together in `families`, of which a run takes as `kinds`
//! says. How: `run`, `driver` (the pipe), `compare`; `pages` does the same for the listing program.
//! `self_test` and `mirror` try this program itself.

mod calls;
mod compare;
mod drawing;
mod driver;
mod families;
mod kinds;
mod malformed;
mod mirror;
mod networks;
mod pages;
mod pairs;
mod random;
mod requests;
mod rules;
mod run;
mod self_test;
mod sides;
mod text;
mod turns;

use calls::Call;
use run::Plan;
use std::process::exit;

const USAGE: &str = "usage: second [OPTION...] -- DRIVER [WORD...]
       second --pages [OPTION...] -- PROGRAM [WORD...]    compare the listing program
       second --self-test     try the rules as written here on known answers
       second --answer        be a driver that answers by the rules
options: --calls NAMES        the calls to compare, with commas between (all six)
         --seed NUMBER        another seed than 1
         --size NUMBER        so many times as many networks of each kind
         --every NUMBER       one in NUMBER of each kind, drawn by lot, but not fewer than 16 of a kind
         --only KIND:NUMBER   the calls on this one network
         --until NUMBER       end after so many differences";

fn main() {
    let words: Vec<String> = std::env::args().skip(1).collect();
    match words.first().map(String::as_str) {
        Some("--self-test") => self_test::run(),
        Some("--answer") => mirror::answer_all(),
        Some("--pages") => exit(plan(&words[1..]).map_or_else(misused, |plan| pages::run(&plan))),
        _ => exit(plan(&words).map_or_else(misused, |plan| run::run(&plan))),
    }
}

fn misused() -> i32 {
    eprintln!("{USAGE}");
    2
}

fn plan(words: &[String]) -> Option<Plan> {
    let end = words.iter().position(|word| word == "--")?;
    let command = words[end + 1..].to_vec();
    let mut plan = Plan {
        command,
        calls: Call::ALL.to_vec(),
        seed: 1,
        size: 1,
        every: 1,
        only: None,
        until: usize::MAX,
    };
    if plan.command.is_empty() || end % 2 == 1 {
        return None;
    }
    for option in words[..end].chunks(2) {
        let value = option[1].as_str();
        match option[0].as_str() {
            "--calls" => {
                plan.calls = value
                    .split(',')
                    .map(call_named)
                    .collect::<Option<Vec<Call>>>()?
            }
            "--seed" => plan.seed = value.parse().ok()?,
            "--size" => plan.size = value.parse().ok()?,
            "--every" => plan.every = value.parse().ok().filter(|&every| every > 0)?,
            "--only" => {
                let (kind, number) = value.split_once(':')?;
                plan.only = Some((kind.to_string(), number.parse().ok()?));
            }
            "--until" => plan.until = value.parse().ok()?,
            _ => return None,
        }
    }
    Some(plan)
}

fn call_named(name: &str) -> Option<Call> {
    Call::ALL.into_iter().find(|call| call.name() == name)
}
