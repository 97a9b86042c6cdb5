//! Runs the differential test and prints its seed and counts: `differential [SEED [LISTS]]`.
//! Without a seed, the clock gives one.

use std::env;
use std::io;
use std::process::ExitCode;
use std::time::{SystemTime, UNIX_EPOCH};

use differential::{run, Plan};
use reference::Mistake;

fn seed_of_clock() -> u64 {
    let since = SystemTime::now().duration_since(UNIX_EPOCH);
    since.map_or(1, |since| since.as_micros() as u64 % 1_000_000_000)
}

fn plan() -> Option<Plan> {
    let arguments: Vec<_> = env::args().skip(1).map(|argument| argument.parse().ok()).collect();
    let (seed, lists) = match arguments[..] {
        [] => (seed_of_clock(), Plan::LISTS),
        [Some(seed)] => (seed, Plan::LISTS),
        [Some(seed), Some(lists)] => (seed, lists),
        _ => return None,
    };
    Some(Plan { seed, lists, calls: Plan::CALLS, mistake: Mistake::None })
}

fn main() -> ExitCode {
    let Some(plan) = plan() else {
        eprintln!("differential [SEED [LISTS]]");
        return ExitCode::from(2);
    };
    println!("seed {}, {} lists of {} calls", plan.seed, plan.lists, plan.calls);
    let tally = match run(&plan) {
        Ok(tally) => tally,
        Err(difference) => {
            println!("{difference}");
            return ExitCode::FAILURE;
        }
    };
    tally.print(&mut io::stdout()).expect("the counts are printed");
    let complaints = tally.complaints();
    complaints.iter().for_each(|complaint| println!("{complaint}"));
    println!("{} calls agree", tally.calls());
    if complaints.is_empty() {
        ExitCode::SUCCESS
    } else {
        ExitCode::FAILURE
    }
}
