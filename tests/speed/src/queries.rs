//! Time of the queries on a linked table, over types spread through chains of 256.

use std::iter::successors;

use bvm_lang::{parent, Program};
use paqlluri::TypeId;

use crate::shapes::Shape;
use crate::{least, steps, Lent};

/// Most queries that are asked in one run.
const QUERIES: u32 = 1_000_000;

/// A type of n.
fn spread(k: u32, n: usize) -> u32 {
    k.wrapping_mul(2_654_435_761) % n as u32
}

/// A type of n and one that stands up to 255 before it, mostly on the same chain.
fn pair(k: u32, n: usize) -> (u32, u32) {
    let t = spread(k, n);
    (t, t - k % 256 % (t + 1))
}

/// Nanoseconds a query, of so many.
fn each<T>(queries: u32, run: impl FnMut() -> T) -> f64 {
    least(run) / f64::from(queries)
}

pub fn descends(shape: &Shape) {
    for n in steps(shape.most) {
        let mut lent = Lent::new(shape, n);
        let program = lent.rust();
        let linked = lent.ours();
        let ask = |yes: &dyn Fn(u32, u32) -> bool| {
            let yes = |&k: &u32| {
                let (t, a) = pair(k, n);
                yes(t, a)
            };
            (0..QUERIES).filter(yes).count()
        };
        let ours = |t, a| linked.descends(TypeId(t), TypeId(a));
        let rust = |t, a| bvm_lang::descends(&program, t, a);
        assert_eq!(ask(&ours), ask(&rust), "the answers differ");
        let [mine, theirs] =
            [&ours as &dyn Fn(u32, u32) -> bool, &rust].map(|by| each(QUERIES, || ask(by)));
        println!(
            "| descends | {n} | {mine:.1} | {theirs:.1} | {:.2} |",
            theirs / mine
        );
    }
}

/// The answers about types of n, added up.
fn added(n: usize, answer: impl Fn(u32) -> u32) -> u64 {
    let answer = |k| u64::from(answer(spread(k, n)));
    (0..QUERIES).map(answer).sum()
}

pub fn sizes(shape: &Shape) {
    for n in steps(shape.most) {
        let mut lent = Lent::new(shape, n);
        let linked = lent.ours();
        let time = each(QUERIES, || added(n, |a| linked.family_size(TypeId(a))));
        println!("| sizes | {n} | {time:.1} |");
    }
}

/// Beside it what a user of program.rs would write: the chain walked and counted.
pub fn lengths(shape: &Shape) {
    for n in steps(shape.most) {
        let mut lent = Lent::new(shape, n);
        let program = lent.rust();
        let linked = lent.ours();
        let ours = || added(n, |t| linked.chain_length(TypeId(t)));
        let walked = || added(n, |t| chain(&program, t).count() as u32);
        assert_eq!(ours(), walked(), "the answers differ");
        let (mine, theirs) = (each(QUERIES, ours), each(QUERIES, walked));
        println!(
            "| lengths | {n} | {mine:.1} | {theirs:.1} | {:.2} |",
            theirs / mine
        );
    }
}

/// Beside it what a user of program.rs would write: both chains walked, or one, with its own family query.
pub fn nearest(shape: &Shape) {
    for n in steps(shape.most) {
        let mut lent = Lent::new(shape, n);
        let program = lent.rust();
        let linked = lent.ours();
        // Some hundred million spans, so that a run takes no longer over more types.
        let queries = QUERIES.min(100_000_000 / n as u32);
        let ask = |by: &dyn Fn(u32, u32) -> Option<u32>| {
            let found = |k: u32| {
                let (t, u) = pair(k, n);
                by(t, u).map_or(0, |f| u64::from(f) + 1)
            };
            (0..queries).map(found).sum::<u64>()
        };
        let ours = |t, u| linked.nearest(TypeId(t), TypeId(u)).map(|f| f.0);
        let both = |t, u| by_both_chains(&program, t, u);
        let one = |t, u| by_one_chain(&program, t, u);
        let ways: [&dyn Fn(u32, u32) -> Option<u32>; 3] = [&ours, &both, &one];
        let answers = ways.map(ask);
        assert!(
            answers.iter().all(|&sum| sum == answers[0]),
            "the answers differ"
        );
        let [mine, both, one] = ways.map(|by| each(queries, || ask(by)));
        let (type_each, ratio) = (mine / n as f64, both / mine);
        println!(
            "| nearest | {n} | {mine:.1} | {type_each:.2} | {both:.1} | {ratio:.2} | {one:.1} |"
        );
    }
}

/// Up from t through declared parents.
fn chain(program: &Program, t: u32) -> impl Iterator<Item = u32> + '_ {
    successors(Some(t), |&t| parent(program, t))
}

/// The longer chain is cut to the length of the other, and both are walked until they meet. Every type is a struct.
fn by_both_chains(program: &Program, t: u32, u: u32) -> Option<u32> {
    let [of_t, of_u] = [t, u].map(|t| chain(program, t).count());
    let (longer, other) = if of_t < of_u { (u, t) } else { (t, u) };
    let cut = chain(program, longer).skip(of_t.abs_diff(of_u));
    cut.zip(chain(program, other))
        .find(|(a, b)| a == b)
        .map(|(a, _)| a)
}

/// The first family of t that u descends from.
fn by_one_chain(program: &Program, t: u32, u: u32) -> Option<u32> {
    chain(program, t).find(|&a| bvm_lang::descends(program, u, a))
}
