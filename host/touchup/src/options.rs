//! The arguments of the command line.

use crate::clip;
use crate::words::{side, whole};
use std::ffi::OsString;
use std::path::PathBuf;
use yoltzimur::constants::TIME_WHOLE;
use yoltzimur::{SceneLimits, Session, Side};

pub struct Options {
    /// None: the built-in clip's, with its payload.
    pub record: Option<PathBuf>,
    pub payloads: Vec<PathBuf>,
    pub table: Option<PathBuf>,
    pub side: Side,
    pub limits: SceneLimits,
    pub time: i32,
    pub history: usize,
    pub out: PathBuf,
    pub scale: usize,
    pub strict: bool,
    pub quiet: bool,
    /// A file, or `-` for standard input.
    pub script: Option<PathBuf>,
}

/// What is asked for.
pub enum Wanted {
    Help,
    SaveClip(PathBuf),
    Play(Box<Options>),
}

impl Default for Options {
    fn default() -> Options {
        Options {
            record: None,
            payloads: Vec::new(),
            table: None,
            side: Side::Backward,
            limits: clip::LIMITS,
            time: TIME_WHOLE,
            history: 100,
            out: PathBuf::from("."),
            scale: 24,
            strict: false,
            quiet: false,
            script: None,
        }
    }
}

/// Reads the arguments, or says what is wrong with them.
pub fn read(arguments: impl Iterator<Item = OsString>) -> Result<Wanted, String> {
    let mut options = Options::default();
    let mut clip = None;
    let mut arguments = arguments.peekable();
    while let Some(argument) = arguments.next() {
        let name = argument.to_string_lossy().into_owned();
        if name == "-" || !name.starts_with('-') {
            if options.script.replace(argument.into()).is_some() {
                return Err(format!("'{name}' is a second script, and one is expected"));
            }
            continue;
        }
        match name.as_str() {
            "--help" | "-h" => return Ok(Wanted::Help),
            "--strict" => options.strict = true,
            "--quiet" => options.quiet = true,
            _ if !VALUED.contains(&name.as_str()) => return Err(format!("unknown argument '{name}'")),
            _ => {
                let value = arguments.next_if(|value| !value.to_string_lossy().starts_with("--"));
                let value = value.ok_or_else(|| format!("{name} has no value after it"))?;
                if name == "--save-clip" {
                    clip = Some(value.into());
                } else {
                    set(&mut options, &name, value)?;
                }
            }
        }
    }
    Ok(clip.map_or_else(|| Wanted::Play(Box::new(options)), Wanted::SaveClip))
}

/// The arguments that a value follows.
const VALUED: [&str; 10] = [
    "--record",
    "--payload",
    "--table",
    "--side",
    "--limits",
    "--time",
    "--history",
    "--out",
    "--scale",
    "--save-clip",
];

fn set(options: &mut Options, name: &str, value: OsString) -> Result<(), String> {
    let text = value.to_string_lossy().into_owned();
    match name {
        "--record" => options.record = Some(value.into()),
        "--payload" => options.payloads.push(value.into()),
        "--table" => options.table = Some(value.into()),
        "--side" => options.side = side(&text).map_err(|problem| format!("--side: {problem}"))?,
        "--limits" => options.limits = limits(&text)?,
        "--time" => options.time = whole(name, &text, i32::MIN, i32::MAX)?,
        "--history" => options.history = whole(name, &text, 1, Session::DEPTH_MOST)?,
        "--out" => options.out = value.into(),
        _ => options.scale = whole(name, &text, 1, 64)?,
    }
    Ok(())
}

/// The five limits, joined by commas.
fn limits(text: &str) -> Result<SceneLimits, String> {
    let numbers = text
        .split(',')
        .map(|word| whole("a limit of --limits", word, i32::MIN, i32::MAX))
        .collect::<Result<Vec<i32>, String>>()?;
    let [blocks, zero, m1, m2, scene] = numbers[..] else {
        return Err(format!("--limits has {} numbers, and blocks,zero,m1,m2,scene are expected", numbers.len()));
    };
    Ok(SceneLimits { blocks, zero, m1, m2, scene })
}
