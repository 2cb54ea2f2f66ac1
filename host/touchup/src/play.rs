//! Plays the calls of a script on a session, prints each with its answer, and writes the pictures.

use crate::fault::Fault;
use crate::gesture::Unnamed;
use crate::input::{Payload, Payloads};
use crate::output;
use crate::payload::{explain, half};
use crate::pictures::{self, Picture};
use crate::progress::Progress;
use crate::script::{Call, Fields, Line};
use crate::step::{Step, steps};
use crate::words::side_name;
use std::collections::BTreeSet;
use std::io::{self, Write};
use std::path::{Path, PathBuf};
use yoltzimur::constants::{COVER_WHOLE, ENTRY_SIZE};
use yoltzimur::{BlockVector, Error, Gesture, Session, Side};

/// What a script is played with.
pub struct Stage<'a> {
    pub session: Session,
    pub payloads: &'a Payloads,
    pub unnamed: Unnamed,
    pub out: PathBuf,
    pub scale: usize,
    pub strict: bool,
    pub quiet: bool,
}

/// How many calls were played, refused, and how many pictures written.
#[derive(Default)]
pub struct Tally {
    pub calls: usize,
    pub refused: usize,
    pub pictures: usize,
}

/// What came of a call: words for a person, or why it is no accepted one.
enum Outcome {
    Accepted(String),
    Refused(Error, String),
    Failed(String),
}

impl From<Error> for Outcome {
    fn from(error: Error) -> Outcome {
        Outcome::Refused(error, String::new())
    }
}

/// "refused by 7: .." and what the library says of it.
pub fn refusal(error: Error) -> String {
    match error.number() {
        Some(number) => format!("refused by {number}: {error}"),
        None => format!("refused: {error}"),
    }
}

/// Plays every line. A refused call is printed and the script goes on, unless it is played strictly.
pub fn play(stage: &mut Stage<'_>, script: &str, lines: &[Line], to: &mut impl Write) -> Result<Tally, Fault> {
    let mut tally = Tally::default();
    let mut progress = Progress::new(stage.quiet);
    for line in lines {
        progress.at(tally.calls, lines.len());
        tally.calls += 1;
        let place = format!("{script}:{}", line.number);
        match stage.call(&line.call) {
            Outcome::Accepted(words) => {
                tally.pictures += usize::from(line.call.picture().is_some());
                if !stage.quiet {
                    say(to, &format!("{:4}  {}: {words}\n", line.number, line.text))?;
                }
            }
            Outcome::Refused(error, more) => {
                tally.refused += 1;
                say(to, &format!("{:4}  {}: {}{more}\n", line.number, line.text, refusal(error)))?;
                if stage.strict {
                    progress.end();
                    return Err(Fault::refused(format!("{place}: {}: {}{more}", line.text, refusal(error))));
                }
            }
            Outcome::Failed(problem) => {
                progress.end();
                return Err(Fault::input(format!("{place}: {problem}")));
            }
        }
    }
    progress.end();
    Ok(tally)
}

/// Prints, or says that there is nobody to print for.
pub fn say(to: &mut impl Write, text: &str) -> Result<(), Fault> {
    to.write_all(text.as_bytes()).map_err(|problem: io::Error| Fault::input(format!("standard output: {problem}")))
}

impl Stage<'_> {
    fn call(&mut self, call: &Call) -> Outcome {
        match call {
            Call::Take(place) => self.take(*place),
            Call::Pool(places) => self.pool(*places),
            Call::Put(side, block, fields, gesture) => self.put(*side, *block, fields, *gesture),
            Call::Undo => self.undo(),
            Call::Redo => self.redo(),
            Call::Retime(time) => self.retime(*time),
            Call::CoverMask(cover, name) => self.mask(name, |session, mask| session.cover_mask(*cover, 1.0, mask)),
            Call::SadMask(scale, name) => self.mask(name, |session, mask| session.sad_mask(COVER_WHOLE, *scale, mask)),
            Call::Map(name) => self.write(name, pictures::map(&self.session, self.scale)),
            Call::Vectors(side, name) => {
                let side = side.unwrap_or(self.session.side());
                self.write(name, pictures::vectors(&self.session, side, self.scale))
            }
            Call::Averages(name) => self.write(name, pictures::averages(&self.session, self.scale)),
            Call::Show(side, block) => self.show(*side, *block),
            Call::Class => match self.session.quality() {
                Ok(class) => Outcome::Accepted(format!("{class}")),
                Err(error) => error.into(),
            },
        }
    }

    fn take(&mut self, place: usize) -> Outcome {
        let Some(payload) = self.payloads.get(place) else {
            return Outcome::Failed("the payload is not there".into());
        };
        match self.session.take(&payload.bytes) {
            Ok(()) => Outcome::Accepted(format!("accepted; {} bytes, {}", payload.bytes.len(), self.counts())),
            Err(error) => self.refused(error, &self.wrong(&[payload])),
        }
    }

    fn pool(&mut self, places: [usize; 2]) -> Outcome {
        let [Some(first), Some(second)] = places.map(|place| self.payloads.get(place)) else {
            return Outcome::Failed("a payload is not there".into());
        };
        if let Err(error) = self.session.pool(&first.bytes, &second.bytes) {
            return self.refused(error, &self.wrong(&[first, second]));
        }
        let [backward, forward] = [Side::Backward, Side::Forward].map(|side| self.others(side, &first.bytes));
        Outcome::Accepted(format!(
            "accepted; {} and {} bytes, of the second {backward} backward and {forward} forward entries; {}",
            first.bytes.len(),
            second.bytes.len(),
            self.counts()
        ))
    }

    /// How many blocks of a side that a payload has entries for have another one.
    fn others(&self, side: Side, payload: &[u8]) -> usize {
        let given = half(self.session.shape(), payload, side).unwrap_or_default();
        let pairs = self.session.set(side).chunks(ENTRY_SIZE).zip(given.chunks(ENTRY_SIZE));
        pairs.filter(|(kept, given)| kept != given).count()
    }

    /// What is wrong with the first of some payloads that is not as it should be.
    fn wrong(&self, payloads: &[&Payload]) -> String {
        let told = payloads.iter().find_map(|payload| {
            let more = explain(self.session.shape(), &payload.bytes)?;
            Some(format!("{}: {more}; ", payload.path.display()))
        });
        told.unwrap_or_default()
    }

    fn put(&mut self, side: Side, block: u32, fields: &Fields, gesture: Option<Gesture>) -> Outcome {
        let before = self.session.entry(side, block).unwrap_or_default();
        let gesture = gesture.unwrap_or_else(|| self.unnamed.begin());
        match self.session.put(side, block, fields.over(before), gesture) {
            Ok(()) => Outcome::Accepted(format!("accepted; it was {}; {}", entry(before), self.counts())),
            Err(error) => self.refused(error, ""),
        }
    }

    fn undo(&mut self) -> Outcome {
        let before = self.session.past();
        if let Err(error) = self.session.undo() {
            return self.refused(error, "");
        }
        // The steps that were taken back are the first to redo; the first of them came last.
        let run = self.steps(self.session.past(), before);
        self.again(&run, run.first().map(|step| (step, step.old)))
    }

    fn redo(&mut self) -> Outcome {
        let before = self.session.past();
        if let Err(error) = self.session.redo() {
            return self.refused(error, "");
        }
        // The steps that were made again are the last to undo; the last of them came last.
        let run = self.steps(before, self.session.past());
        self.again(&run, run.last().map(|step| (step, step.new)))
    }

    /// The steps from one place in the history to before another.
    fn steps(&self, from: u32, to: u32) -> Vec<Step> {
        steps(&self.session).take(to as usize).skip(from as usize).collect()
    }

    /// What a gesture did in words: how many steps it has, on how many entries where they are several, and the entry that the step that
    /// came last gave to its block again.
    fn again(&self, run: &[Step], last: Option<(&Step, BlockVector)>) -> Outcome {
        let touched: BTreeSet<(&str, u32)> = run.iter().map(|step| (side_name(step.side), step.block)).collect();
        let on = if touched.len() > 1 { format!(" on {} entries", touched.len()) } else { String::new() };
        let words = last.map(|(s, given)| format!("{} block {} is {} again", side_name(s.side), s.block, entry(given)));
        let words = words.unwrap_or_default();
        Outcome::Accepted(format!("accepted; {}{on}: {words}; {}", counted(run.len()), self.counts()))
    }

    fn retime(&mut self, time: i32) -> Outcome {
        let before = self.session.time();
        match self.session.retime(time) {
            Ok(()) => Outcome::Accepted(format!("accepted; the time was {before}; {}", self.counts())),
            Err(error) => self.refused(error, ""),
        }
    }

    fn show(&self, side: Side, block: u32) -> Outcome {
        match self.session.entry(side, block) {
            Some(found) => Outcome::Accepted(entry(found)),
            None => Error::Place.into(),
        }
    }

    fn mask(&mut self, name: &Path, fill: impl FnOnce(&mut Session, &mut [u8]) -> Result<(), Error>) -> Outcome {
        let mut mask = vec![0; self.session.mask_len()];
        match fill(&mut self.session, &mut mask) {
            Ok(()) => self.write(name, pictures::mask(&self.session, &mask, self.scale)),
            Err(error) => error.into(),
        }
    }

    fn write(&self, name: &Path, picture: Picture) -> Outcome {
        let path = self.out.join(name);
        match output::write(&path, &picture.bytes) {
            Ok(()) => {
                Outcome::Accepted(format!("{} by {} pixels in {}", picture.width, picture.height, path.display()))
            }
            Err(problem) => Outcome::Failed(problem),
        }
    }

    /// A refused call of the session, with why in words if there are some, and how the session stands after it.
    fn refused(&self, error: Error, why: &str) -> Outcome {
        Outcome::Refused(error, format!(" ({why}{})", self.counts()))
    }

    /// How many steps there are, and the class, in words.
    fn counts(&self) -> String {
        let (past, future) = (self.session.past() as usize, self.session.future());
        format!("{} to undo, {future} to redo, {}", counted(past), kept_class(&self.session))
    }
}

/// The kept class in words; it is accepted of every session.
pub fn kept_class(session: &Session) -> String {
    session.kept_class().map_or_else(|error| format!("class {}", refusal(error)), |class| format!("class {class}"))
}

/// So many steps in words.
fn counted(steps: usize) -> String {
    format!("{steps} {}", if steps == 1 { "step" } else { "steps" })
}

/// An entry in the words of a put.
fn entry(entry: BlockVector) -> String {
    format!("x={} y={} sad={} luma={}", entry.x, entry.y, entry.sad, entry.luma)
}
