//! The loop over inputs, boundaries first and then drawn ones; the first that differs is made as small as can be.

use std::fmt::Debug;
use std::time::{Duration, Instant};

use draw::Draw;

use crate::options::Options;
use crate::plant::{Found, Part};
use crate::tally::Tally;

/// A call, or the session's calls in lists: its inputs and how one is compared.
pub struct Kind<I> {
    pub call: &'static str,
    /// How many inputs are drawn unless the command says.
    pub drawn: u64,
    /// Large inputs are left out where the flag says small.
    pub boundaries: fn(bool) -> Box<dyn Iterator<Item = I>>,
    pub draw: fn(&mut Draw) -> I,
    pub check: fn(&I, &mut Tally) -> Result<(), String>,
    /// Changes that make an input a little simpler.
    pub smaller: fn(&I) -> Vec<Change<I>>,
}

pub type Change<I> = Box<dyn Fn(&mut I)>;

/// How long the smallest input is looked for.
const PATIENCE: Duration = Duration::from_secs(30);

impl<I: Clone + Debug> Kind<I> {
    pub fn run(&self, options: &Options, tally: &mut Tally) -> Result<(), String> {
        let mut progress = Progress::new(self.call);
        for (index, input) in (self.boundaries)(options.small).enumerate() {
            progress.show(|| format!("boundary {index}"));
            self.try_one(&input, tally).map_err(|text| format!("{}, boundary {index}: {text}", self.call))?;
        }
        for index in 0..self.drawn {
            progress.show(|| format!("drawn input {index} of {}", self.drawn));
            let input = self.nth(options.seed, index);
            let place = || format!("{}, drawn input {index} of seed {}", self.call, options.seed);
            self.try_one(&input, tally).map_err(|text| format!("{}: {text}", place()))?;
        }
        progress.done();
        Ok(())
    }

    /// Each drawn input has a seed of its own, so that it can be drawn alone.
    fn nth(&self, seed: u64, index: u64) -> I {
        let name = self.call.bytes().fold(0u64, |sum, byte| sum.wrapping_mul(257).wrapping_add(u64::from(byte)));
        let mut mixed = Draw::new(seed ^ name.rotate_left(32));
        (self.draw)(&mut Draw::new(mixed.bits() ^ index.wrapping_mul(0x9E37_79B9_7F4A_7C15)))
    }

    fn try_one(&self, input: &I, tally: &mut Tally) -> Result<(), String> {
        let Err(first) = (self.check)(input, tally) else { return Ok(()) };
        let (smallest, last, tries) = self.shrunk(input.clone(), first.clone());
        let mut text = format!("{smallest:?}");
        if let Some((end, _)) = text.char_indices().nth(6000) {
            text.truncate(end);
            text += " ..";
        }
        Err(format!("{first}\nafter {tries} smaller inputs: {last}\n{text}"))
    }

    /// Takes the first smaller input that still differs, as often as there is one.
    fn shrunk(&self, mut input: I, mut difference: String) -> (I, String, usize) {
        let (start, mut tries, mut unused) = (Instant::now(), 0, Tally::default());
        'smaller: loop {
            for change in (self.smaller)(&input) {
                if start.elapsed() > PATIENCE {
                    break 'smaller;
                }
                let mut candidate = input.clone();
                change(&mut candidate);
                tries += 1;
                if let Err(other) = (self.check)(&candidate, &mut unused) {
                    (input, difference) = (candidate, other);
                    continue 'smaller;
                }
            }
            break;
        }
        (input, difference, tries)
    }

    /// Compares boundaries and drawn inputs until a difference shows.
    fn find(&self, seed: u64) -> Option<String> {
        let drawn = (0..5000).map(|index| self.nth(seed, index));
        let mut inputs = (self.boundaries)(true).take(5000).chain(drawn);
        inputs.find_map(|input| (self.check)(&input, &mut Tally::default()).err())
    }

    /// Plants each part of a call's answers in turn, for one comparison to find.
    pub fn plant(&self, of: (&'static str, &'static str), parts: &[Part], options: &Options, found: &mut Found) {
        found.try_each(of, parts, || self.find(options.seed));
    }
}

/// A line every few seconds.
struct Progress {
    call: &'static str,
    start: Instant,
    shown: Instant,
    steps: u32,
}

impl Progress {
    fn new(call: &'static str) -> Self {
        Self { call, start: Instant::now(), shown: Instant::now(), steps: 0 }
    }

    fn show(&mut self, text: impl Fn() -> String) {
        self.steps = self.steps.wrapping_add(1);
        if self.steps.is_multiple_of(64) && self.shown.elapsed() > Duration::from_secs(5) {
            eprintln!("{}: {}", self.call, text());
            self.shown = Instant::now();
        }
    }

    fn done(&self) {
        eprintln!("{}: done in {:.1} s", self.call, self.start.elapsed().as_secs_f64());
    }
}
