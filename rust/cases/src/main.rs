//! Executes every call of the proved library, and the drill, on made-up states and tables, and compares each answer, state and
//! table with literals from documents 01 and 02. A line for each case, and a total; the exit status is 0 where none is wrong.

mod ask_cases;
mod calls;
mod commit_cases;
mod device_write_cases;
mod drill_cases;
mod drivers;
mod drop_cases;
mod enter_cases;
mod fetch_cases;
mod guard;
mod leave_cases;
mod pending_cases;
mod question_7_cases;
mod start_cases;
mod state_run_cases;
mod sync_all_cases;
mod sync_page_cases;
mod sync_tree_cases;
mod tally;
mod walk_cases;
mod write_cases;
mod write_record_cases;

use std::process::ExitCode;
use tally::Tally;

fn main() -> ExitCode {
    let t = Tally::default();
    let t = start_cases::all(t);
    let t = sync_page_cases::all(t);
    let t = sync_all_cases::all(t);
    let t = fetch_cases::all(t);
    let t = write_cases::all(t);
    let t = enter_cases::all(t);
    let t = leave_cases::all(t);
    let t = device_write_cases::all(t);
    let t = write_record_cases::all(t);
    let t = walk_cases::all(t);
    let t = sync_tree_cases::all(t);
    let t = ask_cases::all(t);
    let t = commit_cases::all(t);
    let t = drop_cases::all(t);
    let t = pending_cases::all(t);
    let t = question_7_cases::all(t);
    let t = state_run_cases::all(t);
    let t = drill_cases::all(t);
    if t.total() {
        ExitCode::SUCCESS
    } else {
        ExitCode::FAILURE
    }
}
