//! A run: one thread makes requests and works out what is expected, another asks the driver and
//! compares, so that both of a small machine's processors are busy.

use crate::calls::{Call, Expected, Request, Rules};
use crate::compare::{described, difference};
use crate::driver::{Driver, Kept};
use crate::families;
use crate::kinds::{taken, Kind, Tally};
use crate::random::Random;
use std::sync::mpsc::{sync_channel, Receiver, SyncSender};
use std::thread;

pub struct Plan {
    pub command: Vec<String>,
    pub calls: Vec<Call>,
    pub seed: u64,
    pub size: usize,
    pub every: usize,
    pub only: Option<(String, usize)>,
    /// A run ends after so many differences.
    pub until: usize,
}

struct Case {
    kind: String,
    number: usize,
    request: Request,
    expected: Expected,
}

/// A batch is closed once it lends this many numbers, or has this many calls.
const MOST_LENT: usize = 400_000;
const MOST_CALLS: usize = 4_000;
const MOST_SHOWN: usize = 5;

/// The exit status: 0 where all is as expected, 1 on a difference, 2 where nothing could be compared.
pub fn run(plan: &Plan) -> i32 {
    println!(
        "calls: {}; seed {}, size {}, every {}",
        call_names(plan),
        plan.seed,
        plan.size,
        plan.every
    );
    let (sender, receiver) = sync_channel(4);
    let (tally, (compared, differences)) = thread::scope(|scope| {
        let comparer = scope.spawn(|| compare_all(plan, receiver));
        let tally = make_all(plan, &sender);
        drop(sender);
        let found = comparer
            .join()
            .expect("the comparing thread ends by itself");
        (tally, found)
    });
    if let (Some(tally), None) = (tally, &plan.only) {
        println!("networks of each kind:\n{}", tally.shown());
    }
    println!("{compared} calls compared, {differences} differences");
    match (compared, differences) {
        (0, _) => 2,
        (_, 0) => 0,
        _ => 1,
    }
}

/// Makes all cases and tells of how many networks, or nothing where the comparer has given up.
fn make_all(plan: &Plan, sender: &SyncSender<Vec<Case>>) -> Option<Tally> {
    let mut rules = Rules::new();
    let mut tally = Tally::default();
    let mut batch = Vec::new();
    let mut lent = 0;
    for kind in families::all() {
        let numbers = numbers(plan, &kind);
        for &number in &numbers {
            let mut random = Random::for_network(plan.seed, &kind.name, number);
            for request in kind.requests(number, &mut rules, &plan.calls, &mut random) {
                let expected = rules.expected(&request);
                lent += request.buffers.iter().map(Vec::len).sum::<usize>();
                batch.push(Case {
                    kind: kind.name.clone(),
                    number,
                    request,
                    expected,
                });
                if lent > MOST_LENT || batch.len() == MOST_CALLS {
                    lent = 0;
                    sender.send(std::mem::take(&mut batch)).ok()?;
                }
            }
        }
        tally.add(&kind, numbers.len(), kind.count * plan.size);
    }
    sender.send(batch).ok()?;
    Some(tally)
}

/// The numbers of a kind's networks that a run goes through.
fn numbers(plan: &Plan, kind: &Kind) -> Vec<usize> {
    match &plan.only {
        Some((name, number)) if *name == kind.name => vec![*number],
        Some(_) => Vec::new(),
        None => {
            let mut random = Random::for_kind(plan.seed, &kind.name);
            taken(kind.count * plan.size, plan.every, &mut random)
        }
    }
}

fn compare_all(plan: &Plan, batches: Receiver<Vec<Case>>) -> (usize, usize) {
    let (mut compared, mut differences) = (0, 0);
    let mut driver = start(plan);
    for batch in batches {
        let requests: Vec<&Request> = batch.iter().map(|case| &case.request).collect();
        let answers = driver.ask(&requests);
        for (case, answer) in batch.iter().zip(&answers) {
            compared += 1;
            differences += check(plan, case, answer, differences);
            if differences == plan.until {
                driver.stop();
                return (compared, differences);
            }
        }
        if answers.len() < batch.len() {
            // the driver ended within the batch, and its last answers with it: one call at a time
            // shows which call ends it
            driver = start(plan);
            for case in &batch[answers.len()..] {
                compared += 1;
                match driver.ask(&[&case.request]).first() {
                    Some(answer) => differences += check(plan, case, answer, differences),
                    None => {
                        show(plan, case, "the call ended the driver, or took minutes");
                        return (compared, differences + 1);
                    }
                }
            }
        }
    }
    driver.stop();
    (compared, differences)
}

fn start(plan: &Plan) -> Driver {
    Driver::start(&plan.command).unwrap_or_else(|error| {
        eprintln!("the driver {:?} can't be started: {error}", plan.command);
        std::process::exit(2)
    })
}

/// 1 on a difference, which is printed unless many were before it.
fn check(plan: &Plan, case: &Case, (answer, kept): &Kept, before: usize) -> usize {
    let found = match kept {
        true => difference(&case.request, &case.expected, answer),
        false => Some("the call wrote outside the lent buffers".to_string()),
    };
    if let Some(found) = &found {
        if before < MOST_SHOWN {
            show(plan, case, found);
        }
    }
    usize::from(found.is_some())
}

fn show(plan: &Plan, case: &Case, found: &str) {
    println!("\nDIFFERENCE: {found}\n{}", described(&case.request));
    // the marks in the lent buffers depend on the calls that are made, so these are named too
    let calls = call_names(plan);
    println!(
        "again with: --calls {calls} --seed {} --only {}:{}\n",
        plan.seed, case.kind, case.number
    );
}

fn call_names(plan: &Plan) -> String {
    let names: Vec<&str> = plan.calls.iter().map(|call| call.name()).collect();
    names.join(",")
}
