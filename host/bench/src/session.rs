//! The session's calls beside rebuilding all with the Rust (update, averages, map, planes and scatter), and the kept class beside quality.

use std::time::Instant;

use boundary::session::{self as archive, Lent, Owned};
use model::calls::Put;
use model::history::SLOT;
use model::session::{Answer, Counts, Session};

use crate::clock::{Times, race, ratio, samples, shown, used};
use crate::fields::{Field, LIMITS, PELS, SIZES, TIMES};
use crate::runs::{self, MOVES};
use crate::rust::Rust;

/// The shown side is the backward one.
const SIDE: u32 = 1;

/// Undo lists of 256 steps and of the most there can be, both full.
pub const DEPTHS: [usize; 2] = [256, 4096];

pub struct Open<'a> {
    field: &'a Field,
    pub session: Session,
    pub own: Owned,
}

impl<'a> Open<'a> {
    pub fn new(field: &'a Field, time: i32, depth: usize) -> Result<Self, String> {
        let (shape, n, cells) = (field.shape, field.shape.blocks(), field.shape.plane_size());
        let own = Owned {
            backward: vec![0; 8 * n],
            forward: vec![0; 8 * n],
            table: field.table,
            grid: vec![0; shape.grid_size()],
            xs: vec![0; cells],
            ys: vec![0; cells],
            averages: vec![0; n],
            map: vec![0; n],
            history: vec![0; SLOT * depth],
        };
        let session = Session { shape, side: SIDE, limits: LIMITS, time, past: 0, future: 0, kept: Counts::default() };
        let mut open = Self { field, session, own };
        let (opened, taken) = (open.open(), open.take());
        if opened == 0 && taken == 0 { Ok(open) } else { Err(format!("open answered {opened}, take {taken}")) }
    }

    pub fn call(&mut self, call: impl FnOnce(Session, &mut Lent) -> Answer) -> u32 {
        let answer = call(self.session, &mut self.own.lend());
        self.session = answer.session;
        answer.number
    }

    fn open(&mut self) -> u32 {
        self.call(|s, lent| archive::open(s.shape, s.side, s.limits, s.time, lent))
    }

    pub fn take(&mut self) -> u32 {
        let field = self.field;
        self.call(|s, lent| archive::take(s, &field.payload, lent))
    }

    fn retime(&mut self) -> u32 {
        self.call(|s, lent| archive::retime(s, s.time, lent))
    }

    /// One of many puts, each of another block.
    pub fn put(&mut self, turn: usize, gesture: usize) -> u32 {
        let (block, gesture) = ((turn * 7919 % self.field.shape.blocks()) as u32, gesture as u32);
        let x = (turn % 61) as i16 - 30;
        self.call(|s, lent| archive::put(s, Put { side: SIDE, block, x, y: -x, sad: 500, luma: 90, gesture }, lent))
    }

    /// Times of put with a full list, a sample being 256 calls.
    fn puts(&mut self, depth: usize) -> Result<Times, String> {
        let mut refused: u32 = (0..2 * depth).map(|turn| self.put(turn, turn)).sum();
        let mut times = Vec::new();
        for _ in 0..samples() {
            let start = Instant::now();
            for turn in 0..256 {
                refused += self.put(turn, turn);
            }
            times.push(start.elapsed().as_nanos() as f64 / 256.0);
        }
        if refused == 0 { Ok(Times::of(times)) } else { Err(String::from("a put was refused")) }
    }
}

/// What the Rust does instead of any of these calls.
pub struct Rebuild<'a> {
    rust: Rust,
    field: &'a Field,
    time: i32,
    averages: Vec<u8>,
    map: Vec<u8>,
    xs: Vec<u16>,
    ys: Vec<u16>,
}

impl<'a> Rebuild<'a> {
    fn new(rust: Rust, field: &'a Field, time: i32) -> Self {
        let (n, cells) = (field.shape.blocks(), field.shape.plane_size());
        Self { rust, field, time, averages: vec![0; n], map: vec![0; n], xs: vec![0; cells], ys: vec![0; cells] }
    }

    /// The same with all rebuilt.
    pub fn ran(rust: Rust, field: &'a Field, time: i32) -> Self {
        let mut rebuild = Self::new(rust, field, time);
        rebuild.run();
        rebuild
    }

    fn run(&mut self) {
        self.rust.update(&self.field.payload);
        self.rust.avg_luma(&self.field.table, &mut self.averages);
        self.rust.quality_map(true, &self.averages, &mut self.map);
        self.rust.pack(true, &mut self.xs, &mut self.ys);
        self.rust.cover_mask(false, &mut [], 100, self.time);
    }

    pub fn same(&self, Open { own, .. }: &Open) -> bool {
        self.rust.sets(own.backward.len()) == [&own.backward[..], &own.forward[..]]
            && self.averages == own.averages
            && self.map == own.map
            && self.xs == own.xs
            && self.ys == own.ys
            && self.rust.scratch(own.grid.len()) == own.grid
    }
}

/// What is timed of one field at one time: rebuilding at -O and native, then our calls, and undo and redo of each run.
struct Row {
    head: String,
    rebuilds: [Times; 2],
    calls: [Times; 5],
    runs: [Times; 6],
}

/// A part of each row: its title, how it is timed in words, and its columns.
struct Part {
    title: &'static str,
    how: &'static str,
    heads: &'static [&'static str],
    times: fn(&Row) -> &[Times],
}

const PARTS: [Part; 2] = [
    Part { title: "The session", how: HOW, heads: &CALLS, times: |row| &row.calls },
    Part { title: "Undo and redo of runs", how: runs::HOW, heads: &MOVES, times: |row| &row.runs },
];

const CALLS: [&str; 5] = ["open", "take", "retime", "put, D 256", "put, D 4096"];

const HOW: &str = "\
The undo list is full: a put drops the oldest step and moves the others down. A sample of put is 256 calls.
What take and retime leave is compared with what the Rust makes; open and put must be accepted.
";

pub fn tables() -> Result<String, String> {
    let mut rows = Vec::new();
    for size in SIZES {
        for pel in PELS {
            let field = Field::new(size, pel);
            for time in TIMES {
                eprintln!("session: {}, pel {pel}, T {time}", field.name);
                rows.push(timed(&field, time, format!("{} | {pel} | {time}", field.name))?);
            }
        }
    }
    let both = [("-O", 0), ("native", 1)];
    let all = PARTS.iter().flat_map(|part| both.map(|(name, which)| table(&rows, part, name, which)));
    Ok(all.collect::<Vec<String>>().join("\n"))
}

/// A part of the rows beside one of the two rebuildings.
fn table(rows: &[Row], part: &Part, name: &str, which: usize) -> String {
    let mut out = format!("## {} beside rebuilding all with the Rust, {name}\n\n", part.title);
    out += "Each call: our best time, then ours over the Rust's update, avg_luma, quality_map, pack and scatter, best / median.\n";
    let (heads, line) = (part.heads.join(" | "), "---|".repeat(part.heads.len()));
    out += &format!("{}\n| field | pel | T | rebuilding | {heads} |\n|---|---|---|---|{line}\n", part.how);
    for row in rows {
        let rebuild = row.rebuilds[which];
        let cell = |times: &Times| format!("{}, {}", shown(times.best), ratio(*times, rebuild));
        let cells: Vec<String> = (part.times)(row).iter().map(cell).collect();
        out += &format!("| {} | {} | {} |\n", row.head, shown(rebuild.best), cells.join(" | "));
    }
    out
}

fn timed(field: &Field, time: i32, head: String) -> Result<Row, String> {
    let mut open = Open::new(field, time, DEPTHS[1])?;
    let [mut base, mut native] = Rust::both(field).map(|rust| Rebuild::new(rust, field, time));
    base.run();
    native.run();
    let mut other = Open::new(field, time, DEPTHS[1])?;
    let mut third = Open::new(field, time, DEPTHS[1])?;
    third.own.grid.fill(0); // which retime must fill
    let retimed = third.retime() == 0 && native.same(&third);
    if !base.same(&open) || !native.same(&open) || !retimed {
        return Err(format!("{head}: the session and the Rust differ; run compare"));
    }
    let [at_base, at_native, opened, taken, retimed] = race([
        &mut || base.run(),
        &mut || native.run(),
        &mut || used(open.open()),
        &mut || used(other.take()),
        &mut || used(third.retime()),
    ]);
    let shallow = Open::new(field, time, DEPTHS[0])?.puts(DEPTHS[0])?;
    let calls = [opened, taken, retimed, shallow, third.puts(DEPTHS[1])?];
    Ok(Row { head, rebuilds: [at_base, at_native], calls, runs: runs::timed(&mut other, &native)? })
}

/// The kept class beside the class that a walk over the blocks finds, ours and the Rust's.
pub fn kept_class() -> Result<String, String> {
    let mut out = String::from("## The kept class beside quality\n\n");
    out += "The class of a session after a take, by its kept counts alone; and by quality, which walks over the blocks.\n\n";
    out += "| field | kept class | our quality | kept / ours, best / median | Rust -O | kept / Rust, best / median | Rust native | kept / Rust, best / median |\n";
    out += "|---|---|---|---|---|---|---|---|\n";
    for size in SIZES {
        let field = Field::new(size, 1);
        eprintln!("kept class: {}", field.name);
        let [kept, walks @ ..] = kept_timed(&field)?;
        let cells = walks.map(|walk| format!("{} | {}", shown(walk.best), ratio(kept, walk)));
        out += &format!("| {} | {} | {} |\n", field.name, shown(kept.best), cells.join(" | "));
    }
    Ok(out)
}

fn kept_timed(field: &Field) -> Result<[Times; 4], String> {
    let Open { session, own, .. } = Open::new(field, TIMES[0], DEPTHS[0])?;
    let [base, native] = Rust::both(field);
    let kept = || archive::kept_class(session);
    let ours = || boundary::field::quality(session.shape, SIDE, LIMITS, &own.backward, &own.forward, &own.averages);
    let class = kept();
    let same = |rust: &Rust| i64::from(rust.quality(true, &own.averages)) == i64::from(class.value);
    if class.number != 0 || class != ours() || !same(&base) || !same(&native) {
        return Err(format!("{}: the kept class is another than quality's; run compare", field.name));
    }
    Ok(race([&mut || used(kept()), &mut || used(ours()), &mut || used(base.quality(true, &own.averages)), &mut || {
        used(native.quality(true, &own.averages))
    }]))
}
