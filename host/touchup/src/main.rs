//! touchup: plays calls on a touch-up session, prints what each answers, and draws what they leave.

#![forbid(unsafe_code)]

mod canvas;
mod clip;
mod fault;
mod gesture;
mod input;
mod options;
mod output;
mod payload;
mod pictures;
mod play;
mod png;
mod progress;
mod script;
mod step;
mod words;

use fault::Fault;
use gesture::Unnamed;
use input::Payloads;
use options::{Options, Wanted};
use output::Made;
use play::{Stage, kept_class, play, refusal, say};
use script::Line;
use std::collections::BTreeSet;
use std::env;
use std::io::{self, BufWriter, Write};
use std::path::{Path, PathBuf};
use std::process::ExitCode;
use yoltzimur::constants::{RECORD_LEN, RECORD_START};
use yoltzimur::{Error, FieldShape, Session, vector_data};

/// How many wrong lines of a script are told.
const TOLD: usize = 20;

fn main() -> ExitCode {
    let mut to = BufWriter::new(io::stdout());
    let ended = run(&mut to);
    let flushed = to.flush().map_err(|problem| Fault::input(format!("standard output: {problem}")));
    match ended.and(flushed) {
        Ok(()) => ExitCode::SUCCESS,
        Err(fault) => {
            // Where standard error is gone too, the status is all that is left.
            writeln!(io::stderr(), "touchup: {}", fault.message).ok();
            ExitCode::from(fault.status)
        }
    }
}

fn run(to: &mut impl Write) -> Result<(), Fault> {
    match options::read(env::args_os().skip(1)).map_err(Fault::usage)? {
        Wanted::Help => say(to, include_str!("help.txt")),
        Wanted::SaveClip(folder) => say(to, &clip::save(&folder).map_err(Fault::input)?),
        Wanted::Play(options) => perform(&options, to),
    }
}

/// Reads everything, opens the session, sees that every picture can be written, and only then plays.
fn perform(options: &Options, to: &mut impl Write) -> Result<(), Fault> {
    let shape = shape(options)?;
    let table = options.table.as_deref().map_or(Ok(*clip::TABLE), input::table)?;
    let mut payloads = payloads(options)?;
    let (name, lines) = calls(options, &mut payloads)?;
    let session = Session::open(shape, options.side, options.limits, options.time, &table, options.history)
        .map_err(|error| Fault::refused(format!("open: {}; {}", refusal(error), opened(shape, options))))?;
    let wanted: BTreeSet<PathBuf> =
        lines.iter().filter_map(|line| Some(options.out.join(line.call.picture()?))).collect();
    let made = if wanted.is_empty() {
        Made::default()
    } else {
        output::prepare(&options.out, &wanted).map_err(Fault::input)?
    };
    let Options { scale, strict, quiet, .. } = *options;
    let unnamed = Unnamed::of(&lines);
    let mut stage = Stage { session, payloads: &payloads, unnamed, out: options.out.clone(), scale, strict, quiet };
    let opening = format!("open: accepted; {}, {}\n", opened(shape, options), kept_class(&stage.session));
    // A folder that no picture came into goes again.
    played(&mut stage, &opening, &name, &lines, to).inspect_err(|_| made.remove())
}

/// Says what was opened, plays, and says how many calls and pictures there were.
fn played(stage: &mut Stage, opening: &str, name: &str, lines: &[Line], to: &mut impl Write) -> Result<(), Fault> {
    if !stage.quiet {
        say(to, opening)?;
    }
    let tally = play(stage, name, lines, to)?;
    say(to, &format!("calls: {}, refused: {}, pictures: {}\n", tally.calls, tally.refused, tally.pictures))
}

/// The shape of the record, which open judges.
fn shape(options: &Options) -> Result<FieldShape, Fault> {
    let Some(path) = &options.record else {
        return Ok(clip::shape());
    };
    let bytes = input::read(path).map_err(Fault::input)?;
    vector_data(&bytes).map(FieldShape::from).map_err(|error| {
        let first = bytes.first_chunk().map_or("nothing".into(), |word| i32::from_le_bytes(*word).to_string());
        Fault::input(format!(
            "{}: {}; it has {} bytes and begins with {first}, and {RECORD_LEN} bytes that begin with {RECORD_START} are expected",
            path.display(),
            refusal(error),
            bytes.len()
        ))
    })
}

/// The payloads of the arguments; where they name neither record nor payload the clip's, and that of its second estimator by its name.
fn payloads(options: &Options) -> Result<Payloads, Fault> {
    let mut payloads = Payloads::default();
    for path in &options.payloads {
        payloads.give(path).map_err(Fault::input)?;
    }
    if options.record.is_none() && options.payloads.is_empty() {
        let made = |name, bytes: Result<_, Error>| {
            bytes.map_err(|error| Fault::refused(format!("{name}: {}", refusal(error))))
        };
        payloads.give_bytes(clip::PAYLOAD, made(clip::PAYLOAD, clip::payload())?);
        payloads.name_bytes(clip::SECOND, made(clip::SECOND, clip::second())?);
    }
    Ok(payloads)
}

/// The script's name and calls: the one named, the clip's, or a look at each payload.
fn calls(options: &Options, payloads: &mut Payloads) -> Result<(String, Vec<Line>), Fault> {
    let (name, text) = match (&options.script, &options.record) {
        (Some(path), _) => input::script(path).map_err(Fault::input)?,
        (None, None) if options.payloads.is_empty() => ("clip.calls".into(), clip::SCRIPT.into()),
        _ => ("look".into(), look(payloads.given()).into_bytes()),
    };
    let text = String::from_utf8(text).map_err(|problem| {
        let good = &problem.as_bytes()[..problem.utf8_error().valid_up_to()];
        let line = good.iter().filter(|byte| **byte == b'\n').count() + 1;
        Fault::input(format!("{name}:{line}: not UTF-8 text, which a script is"))
    })?;
    let folder = options.script.as_deref().and_then(Path::parent).unwrap_or(Path::new(""));
    let lines = script::read(&text, folder, payloads).map_err(|wrong| Fault::input(told(&name, &wrong)))?;
    Ok((name, lines))
}

/// Each wrong line, up to so many.
fn told(name: &str, wrong: &[(usize, String)]) -> String {
    let mut told: Vec<String> =
        wrong.iter().take(TOLD).map(|(line, problem)| format!("{name}:{line}: {problem}")).collect();
    if wrong.len() > TOLD {
        told.push(format!("{name}: and {} more lines", wrong.len() - TOLD));
    }
    told.push("nothing was played".into());
    told.join("\ntouchup: ")
}

/// Takes each payload and draws what it brings.
fn look(count: usize) -> String {
    (1..=count)
        .map(|k| format!("take\nvectors vectors-{k}.png\nmap map-{k}.png\nmask cover 100 cover-{k}.png\nmask sad 1.0 sad-{k}.png\n"))
        .collect()
}

/// What is opened, in words.
fn opened(s: FieldShape, options: &Options) -> String {
    format!(
        "picture {} by {}, {} by {} blocks of {} by {}, overlap {} and {}, pel {}, flags {}, selector {}; {} shown at time {}, \
         a history of {} steps",
        s.width,
        s.height,
        s.grid_w,
        s.grid_h,
        s.block_w,
        s.block_h,
        s.overlap_x,
        s.overlap_y,
        s.pel,
        s.flags,
        s.selector,
        words::side_name(options.side),
        options.time,
        options.history
    )
}
