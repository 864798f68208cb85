//! bench                       compares both sides, then times them and prints the table
//! bench compare [TURNS]       compares only
//! bench run JOB SIDE TIMES    runs one side (ours or plain) of the table's job on all its inputs, for a profiler to count

mod chance;
mod compare;
mod inputs;
mod jobs;
mod library;

use jobs::{Job, Side, INPUTS};
use std::time::Instant;

/// Rounds of a job's timing, each of both sides on the same inputs.
const ROUNDS: usize = 401;

/// How long our part of a round should take: less than a system lets a program run on, so that few rounds are broken off.
const SECONDS: f64 = 0.0005;

/// The time of so many turns from one on.
fn seconds(side: &mut Side, first: usize, turns: usize) -> f64 {
    let start = Instant::now();
    (first..first + turns).for_each(side);
    start.elapsed().as_secs_f64()
}

/// So many turns of a side that a round is long enough to time.
fn turns_of(side: &mut Side) -> usize {
    seconds(side, 0, INPUTS);
    let mut turns = 1;
    while seconds(side, 0, turns) < SECONDS {
        turns *= 2;
    }
    turns
}

/// Of sorted figures the one that so many hundredths of them lie below.
fn part(sorted: &[f64], hundredths: usize) -> f64 {
    sorted[(sorted.len() - 1) * hundredths / 100]
}

fn sorted(mut figures: Vec<f64>) -> Vec<f64> {
    figures.sort_by(f64::total_cmp);
    figures
}

/// Rust time / our time in each round; above 1 means that ours is faster.
fn ratios(job: &mut Job) -> Vec<f64> {
    let turns = turns_of(&mut job.ours);
    let once = |round| seconds(&mut job.plain, round * turns, turns) / seconds(&mut job.ours, round * turns, turns);
    sorted((0..ROUNDS).map(once).collect())
}

fn table() {
    println!("| job | Rust time / our time | from | to |\n|-|-|-|-|");
    for mut job in jobs::all() {
        let ratios = ratios(&mut job);
        let [middle, low, high] = [50, 10, 90].map(|hundredths| part(&ratios, hundredths));
        println!("| {} | {middle:.2} | {low:.2} | {high:.2} |", job.name);
    }
}

/// The middle time of a turn.
fn middle(side: &mut Side) -> f64 {
    let turns = turns_of(side);
    part(&sorted((0..ROUNDS).map(|round| seconds(side, round * turns, turns) / turns as f64).collect()), 50)
}

/// How the cost of ours grows: times that of 8 rows.
fn growth() {
    println!("\n| our time, times that of 8 rows | 16 | 32 | 64 |\n|-|-|-|-|");
    let kinds: [(&str, fn(usize) -> Job); 3] =
        [("one round", jobs::rounds), ("a day", jobs::days), ("file bytes to listing text", jobs::listings)];
    for (name, job) in kinds {
        let least = middle(&mut job(8).ours);
        let [one, two, three] = [16, 32, 64].map(|rows| middle(&mut job(rows).ours) / least);
        println!("| {name} | {one:.1} | {two:.1} | {three:.1} |");
    }
}

fn run(job: &str, side: &str, times: &str) -> Option<()> {
    let mut job = jobs::all().into_iter().nth(job.parse().ok()?)?;
    let side = match side {
        "ours" => &mut job.ours,
        "plain" => &mut job.plain,
        _ => return None,
    };
    (0..times.parse::<usize>().ok()? * INPUTS).for_each(side);
    Some(())
}

fn main() {
    let words: Vec<String> = std::env::args().skip(1).collect();
    let words: Vec<&str> = words.iter().map(String::as_str).collect();
    match words[..] {
        [] => {
            compare::compare(5_000);
            table();
            growth();
        }
        ["compare"] => compare::compare(5_000),
        ["compare", turns] => compare::compare(turns.parse().expect("how many turns")),
        ["run", job, side, times] => run(job, side, times).expect("a job from 0, ours or plain, how many times"),
        _ => panic!("bench | bench compare [TURNS] | bench run JOB SIDE TIMES"),
    }
}
