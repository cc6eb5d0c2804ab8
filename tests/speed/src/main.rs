//! Time of the proved library beside program.rs with its decoder, on the same bytes.

mod queries;
mod shapes;

use std::hint::black_box;
use std::process::ExitCode;
use std::time::Instant;

use paqlluri::{count_structs, load, table_words, Linked, TypeId};
use shapes::{bytes, Shape, LEFT_OUT, SHAPES};
use sheets::{with_edition, Edition};

const USAGE: &str = "usage:
  speed                              every shape, five sizes each
  speed SHAPE                        one of them
  speed descends                     the family query
  speed sizes                        the size of a family
  speed lengths                      the length of a chain
  speed nearest                      the nearest family of two types
  speed report                       what the report asks of a sheet
  speed names                        export names, beside edition 1, which does not read them
  speed left-out                     calls of an import without its optional arguments, which edition 1 and program.rs refuse
  speed shapes                       their names and largest sizes
  speed ours|rust|none SHAPE N       one call, for a count of instructions; ours|none left-out N too";

/// A sheet, the same in edition 1 for program.rs, its host list, and what a call is lent.
struct Lent {
    sheet: Vec<u8>,
    first: Vec<u8>,
    hosts: Vec<u8>,
    table: Vec<u32>,
    work: Vec<u32>,
}

impl Lent {
    fn new(shape: &Shape, n: usize) -> Lent {
        let (sheet, hosts) = bytes(shape, n);
        let words = table_words(sheet.len());
        Lent {
            first: with_edition(&sheet, Edition::First.word()),
            sheet,
            hosts,
            table: vec![0; words],
            work: vec![0; words],
        }
    }

    /// Our call: the whole of it, the table written and work zeroed.
    fn ours(&mut self) -> Linked<'_> {
        let (sheet, hosts) = (black_box(&self.sheet), black_box(&self.hosts));
        load(sheet, hosts, &mut self.table, &mut self.work).expect("an accepted sheet")
    }

    fn counted(&self) -> u32 {
        count_structs(black_box(&self.sheet)).expect("an intact sheet")
    }

    /// What the report asks: load, the size of every family, the structs counted.
    fn reported(&mut self) -> (u64, u32) {
        (all_sizes(&self.ours()), self.counted())
    }

    /// The sheet's own count of words.
    fn words(&self) -> u32 {
        u32::from_le_bytes(self.sheet[4..8].try_into().expect("four bytes"))
    }

    /// The reference: both files decoded, the registry of hosts, `Program::load`.
    fn rust(&self) -> bvm_lang::Program {
        let words = self.table.len() as u32;
        let (sheet, hosts) = (black_box(&self.first), black_box(&self.hosts));
        let loaded = compare::load(sheet, hosts, words, words);
        let program = loaded.expect("an accepted sheet").into_program();
        program.expect("a sheet of edition 1")
    }
}

/// The least time of some runs in nanoseconds; what a run gives is dropped after its time was taken.
fn least<T>(mut run: impl FnMut() -> T) -> f64 {
    let mut best = u128::MAX;
    let began = Instant::now();
    let mut runs = 0;
    while runs < 3 || (began.elapsed().as_millis() < 300 && runs < 10_000) {
        let start = Instant::now();
        let result = black_box(run());
        best = best.min(start.elapsed().as_nanos());
        drop(result);
        runs += 1;
    }
    best as f64
}

/// The least times of both sides, three times in turn, so that a slow moment of the machine is not one side's alone.
fn in_turn(lent: &mut Lent) -> (f64, f64) {
    let (mut ours, mut rust) = (f64::MAX, f64::MAX);
    for _ in 0..3 {
        ours = ours.min(least(|| lent.ours().words().len()));
        rust = rust.min(least(|| lent.rust()));
    }
    (ours, rust)
}

/// Five sizes, each eight times the one before.
fn steps(most: usize) -> Vec<usize> {
    let all = [4096, 512, 64, 8, 1].map(|d| most / d);
    all.into_iter().filter(|&n| n > 1).collect()
}

fn table(shape: &Shape) {
    let mut last: Option<(f64, f64)> = None;
    for n in steps(shape.most) {
        let mut lent = Lent::new(shape, n);
        let (ours, rust) = in_turn(&mut lent);
        let blocks = |bytes: &[u8]| bytes.len() / sheets::BLOCK;
        let (sheet, hosts) = (blocks(&lent.sheet), blocks(&lent.hosts));
        let size = (sheet + hosts) as f64;
        let exponent = last.map_or(String::new(), |(s, t)| {
            format!("{:.2}", (ours / t).ln() / (size / s).ln())
        });
        let (name, ratio) = (shape.name, rust / ours);
        let (mine, theirs) = (ours / 1e3, rust / 1e3);
        println!("| {name} | {n} | {sheet} | {hosts} | {mine:.1} | {theirs:.1} | {ratio:.2} | {exponent} |");
        last = Some((size, ours));
    }
}

/// How many types a table has a span for.
fn types(linked: &Linked) -> u32 {
    let words = linked.words();
    words[words[9] as usize]
}

/// The sizes of all families, added up.
fn all_sizes(linked: &Linked) -> u64 {
    let size = |a| u64::from(linked.family_size(TypeId(a)));
    (0..types(linked)).map(size).sum()
}

/// What the report asks of a sheet, part by part, at five sizes, each four times the one before.
fn report(shape: &Shape) {
    for n in [256, 64, 16, 4, 1].map(|d| shape.most / d) {
        let mut lent = Lent::new(shape, n);
        let (blocks, words) = (lent.sheet.len() / sheets::BLOCK, lent.words());
        let linked = lent.ours();
        let (types, sized) = (types(&linked), least(|| all_sizes(&linked)));
        let loaded = least(|| lent.ours().words().len());
        let counted = least(|| lent.counted());
        let all = least(|| lent.reported());
        let [count_each, each] = [counted, all].map(|t| t / f64::from(words));
        let [loaded, sized, counted, all] = [loaded, sized, counted, all].map(|t| t / 1e3);
        let name = shape.name;
        println!("| {name} | {types} | {blocks} | {loaded:.1} | {sized:.1} | {counted:.1} | {count_each:.1} | {all:.1} | {each:.1} |");
    }
}

/// Each size twice the one before: our time with names read, and beside it with names unread, both sides.
fn names(shape: &Shape) {
    println!(
        "| exports | blocks | ours µs | growth | ours unread µs | ratio | program.rs unread µs | ratio |"
    );
    println!("|---|---|---|---|---|---|---|---|");
    let mut before = None;
    for n in [4, 2, 1].map(|d| shape.most / d) {
        let mut lent = Lent::new(shape, n);
        let (ours, _) = in_turn(&mut lent);
        let blocks = lent.sheet.len() / sheets::BLOCK;
        lent.sheet.clone_from(&lent.first);
        let (unread, rust) = in_turn(&mut lent);
        let growth = before.map_or(String::new(), |before| format!("{:.2}", ours / before));
        let (ratio, more) = (rust / ours, ours / unread);
        let [mine, first, theirs] = [ours, unread, rust].map(|t| t / 1e3);
        println!("| {n} | {blocks} | {mine:.1} | {growth} | {first:.1} | {more:.2} | {theirs:.1} | {ratio:.2} |");
        before = Some(ours);
    }
}

/// As many optional parameters as calls that leave them all out, each size twice the one before.
fn left_out() {
    println!("| parameters and calls | blocks | ours µs | growth |");
    println!("|---|---|---|---|");
    let mut before = None;
    for n in [4, 2, 1].map(|d| LEFT_OUT.most / d) {
        let mut lent = Lent::new(&LEFT_OUT, n);
        let blocks = lent.sheet.len() / sheets::BLOCK;
        let ours = least(|| lent.ours().words().len());
        let growth = before.map_or(String::new(), |before| format!("{:.2}", ours / before));
        println!("| {n} | {blocks} | {:.1} | {growth} |", ours / 1e3);
        before = Some(ours);
    }
}

/// A shape that program.rs accepts too.
fn shape(name: &str) -> Option<&'static Shape> {
    SHAPES.iter().find(|s| s.name == name)
}

/// One call of ours or of program.rs, or none, on a shape of this size.
fn once(who: &str, name: &str, n: &str) -> Option<()> {
    let ours_alone = Some(&LEFT_OUT).filter(|s| s.name == name && who != "rust");
    let mut lent = Lent::new(shape(name).or(ours_alone)?, n.parse().ok()?);
    match who {
        "ours" => drop(black_box(lent.ours())),
        "rust" => std::mem::forget(black_box(lent.rust())),
        "none" => drop(black_box(lent)),
        _ => return None,
    }
    Some(())
}

/// None where the arguments are wrong.
fn run(args: &[String]) -> Option<()> {
    let args: Vec<&str> = args.iter().map(String::as_str).collect();
    match args[..] {
        [who, name, n] => once(who, name, n)?,
        ["descends"] => queries::descends(shape("chains")?),
        ["sizes"] => queries::sizes(shape("chains")?),
        ["lengths"] => queries::lengths(shape("chains")?),
        ["nearest"] => queries::nearest(shape("chains")?),
        ["report"] => {
            println!(
                "| shape | types | blocks | load µs | sizes µs | count µs | ns a word | all µs | ns a word |"
            );
            println!("|---|---|---|---|---|---|---|---|---|");
            report(shape("ordinary")?);
            report(shape("chains")?);
        }
        ["names"] => names(shape("exports")?),
        ["left-out"] => left_out(),
        ["shapes"] => SHAPES
            .iter()
            .for_each(|s| println!("  {} {}", s.name, s.most)),
        [name] => table(shape(name)?),
        [] => {
            println!(
                "| shape | n | blocks | of hosts | ours µs | program.rs µs | ratio | exponent |"
            );
            println!("|---|---|---|---|---|---|---|---|");
            SHAPES.iter().for_each(table);
        }
        _ => return None,
    }
    Some(())
}

fn main() -> ExitCode {
    let args: Vec<String> = std::env::args().skip(1).collect();
    match run(&args) {
        Some(()) => ExitCode::SUCCESS,
        None => {
            eprintln!("{USAGE}");
            ExitCode::from(2)
        }
    }
}
