//! The session's calls, list by list, beside the model's calls, its machine, and the Rust's rebuilding; and by themselves the kept class and pools.

mod boundaries;
mod by_rust;
mod check;
mod drawn;
mod gestures;
mod kept;
mod nine;
mod pools;
mod scenario;
mod smaller;
mod wrong;
mod wrong_pools;

use crate::kinds;
use crate::options::Options;
use crate::plant::{AGAIN, Found, LAYOUT, MACHINE, MODEL, Part, RUST, count_parts, parts};
use crate::tally::Tally;
use crate::tried::Kind;
use kept::KEPT_CLASS;
use nine::NAMES;
use pools::POOL;
use scenario::Scenario;

const LISTS: Kind<Scenario> = Kind {
    call: "session",
    drawn: 800_000,
    boundaries: boundaries::scenarios,
    draw: drawn::scenario,
    check: check::check,
    smaller: Scenario::smaller,
};

/// The name of what is planted behind a list.
const LIST: &str = "list";

/// The name of what is planted in the kept class of a list's session, after each call and behind the list.
const KEPT_IN_LIST: &str = "kept in list";

/// Calls to a list, about.
const CALLS: u64 = 40;

pub fn compared(options: &Options, tally: &mut Tally) -> Result<(), String> {
    kinds::run(KEPT_CLASS, options, tally)?;
    kinds::run(POOL, options, tally)?;
    if !options.wants("session") {
        return Ok(());
    }
    let drawn = options.cases.map_or(LISTS.drawn, |cases| cases.div_ceil(CALLS));
    Kind { drawn, ..LISTS }.run(options, tally)
}

/// The session handed back, with each count that it keeps.
fn session_parts() -> Vec<Part> {
    [&[Part::Value], &count_parts()[..]].concat()
}

/// The number and the session of an answer, four places of each buffer, payloads among them, and programs that are wrong in this call.
fn answer_parts(call: &str) -> Vec<Part> {
    let payloads = match call {
        "take" => &["payload"][..],
        "pool" => &["first", "second"],
        _ => &[],
    };
    let answer = [&[Part::Number], &session_parts()[..]].concat();
    [parts(&answer, NAMES.into_iter().chain(payloads.iter().copied())), wrong::parts(call)].concat()
}

fn programs(names: &[&'static str]) -> Vec<Part> {
    names.iter().copied().map(Part::Program).collect()
}

/// In the kept class its number and its class. In each of the seven calls the number, the session handed back, each count that it keeps, and
/// four places of each buffer, the payloads among take's and pool's, the gesture that a put writes, and wrong programs, for the model to find; the
/// numbers for the machine too. Then, behind a list, the session with its counts and each buffer for each comparison that is made there, and undos,
/// redos and pools of wrong programs. In a list's kept class the same as in the kept class.
pub fn planted(options: &Options, found: &mut Found) {
    let class = [Part::Number, Part::Value];
    kinds::plant_each(&KEPT_CLASS, &class, &class, options, found);
    planted_alone(options, found);
    if !options.wants("session") {
        return;
    }
    for call in ["open", "take", "pool", "put", "undo", "redo", "retime"] {
        LISTS.plant((MODEL, call), &answer_parts(call), options, found);
        let numbers = if call == "pool" { &wrong_pools::NUMBERS[..] } else { &[] };
        if call != "open" {
            LISTS.plant((MACHINE, call), &[&[Part::Number], &programs(numbers)[..]].concat(), options, found);
        }
    }
    planted_behind(options, found);
    for judge in [MODEL, LAYOUT, RUST] {
        LISTS.plant((judge, KEPT_IN_LIST), &class, options, found);
    }
}

/// In pools by themselves, for the model, and for the Rust what it can find: whether one is accepted, what is kept, and what follows from it.
fn planted_alone(options: &Options, found: &mut Found) {
    if !options.wants(POOL.call) {
        return;
    }
    POOL.plant((MODEL, POOL.call), &answer_parts(POOL.call), options, found);
    let kept = [&wrong_pools::KEPT[..], &wrong_pools::UNFLAGGED, &[wrong_pools::NOTHING]].concat();
    let by_rust = [parts(&[Part::Number], NAMES), programs(&kept)].concat();
    POOL.plant((RUST, POOL.call), &by_rust, options, found);
}

/// What is there after a list, and programs that leave it so.
fn planted_behind(options: &Options, found: &mut Found) {
    let session_and_buffers = parts(&session_parts(), NAMES);
    LISTS.plant((LAYOUT, LIST), &session_and_buffers, options, found);
    LISTS.plant((RUST, LIST), &parts(&[], NAMES), options, found);
    for call in ["undo", "redo"] {
        LISTS.plant((LAYOUT, call), &programs(&wrong::TAKEN), options, found);
        LISTS.plant((RUST, call), &programs(&wrong::TAKEN), options, found);
        let again = [&[Part::Number], &wrong::not_brought_back(call)[..]].concat();
        LISTS.plant((AGAIN, call), &again, options, found);
    }
    let left = [&wrong_pools::KEPT[..], &wrong_pools::UNFLAGGED, &wrong_pools::WRITTEN, &[wrong_pools::SLOTS]].concat();
    LISTS.plant((LAYOUT, "pool"), &programs(&left), options, found);
    LISTS.plant((AGAIN, LIST), &session_and_buffers, options, found);
}
