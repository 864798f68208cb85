//! The plain Rust held to the second program: its stored cases, and day files that it makes.

use plain::dayfile::{read_day, MOST_NUMBERS};
use plain::dayshares::{share_day, Table};
use plain::listing::list_shares;
use plain::overruns::{charge, overruns, Hours, Meter};
use plain::readings::{meter_day, DayGas, Readings};
use plain::rounds::share_round;
use plain::{Answer, Refusal};
use std::process::Command;

/// What a lent list holds before the call.
const LENT: u32 = 4_000_000_000;

const REPOSITORY: &str = concat!(env!("CARGO_MANIFEST_DIR"), "/..");

/// The words of a case.
struct Words<'a>(std::slice::Iter<'a, u32>);

impl Words<'_> {
    fn word(&mut self) -> u32 {
        *self.0.next().unwrap()
    }

    fn wide(&mut self) -> u64 {
        (self.word() as u64) << 32 | self.word() as u64
    }

    fn list(&mut self) -> Vec<u32> {
        (0..self.word()).map(|_| self.word()).collect()
    }

    fn lent(&mut self) -> Vec<u32> {
        vec![LENT; self.word() as usize]
    }

    fn list_of_hours<const COUNT: usize>(&mut self) -> [u64; COUNT] {
        std::array::from_fn(|_| self.wide())
    }

    fn hours(&mut self) -> Hours {
        Hours { yesterday: self.list_of_hours(), delivered: self.list_of_hours(), received: self.list_of_hours() }
    }
}

/// The line that the stored answers have: routine, number, place, figures, and each lent list.
fn line(routine: &str, answer: Answer<Vec<u64>>, lent: &[&[u32]]) -> String {
    let (number, place, figures) = match answer {
        Ok(figures) => (0, 0, figures),
        Err(Refusal { number, place }) => (number, place, vec![]),
    };
    let mut line = format!("{routine} {number} {place}");
    figures.iter().for_each(|figure| line += &format!(" {figure}"));
    for list in lent {
        line += " :";
        list.iter().for_each(|figure| line += &format!(" {figure}"));
    }
    line
}

fn answer_round(words: &mut Words) -> String {
    let (capacity, mut lent, weights, needs) = (words.word(), words.lent(), words.list(), words.list());
    let level = share_round(capacity, &weights, &needs, &mut lent);
    let total = |rows: &[u32]| rows[..weights.len()].iter().map(|&share| share as u64).sum();
    line("share_round", level.map(|level| vec![level, total(&lent)]), &[&lent])
}

fn answer_day(words: &mut Words) -> String {
    let [free_flow, compressor] = [words.word(), words.word()];
    let [mut firm, mut auction, mut lower_tier] = [words.lent(), words.lent(), words.lent()];
    let lists: [Vec<u32>; 5] = std::array::from_fn(|_| words.list());
    let [firm_mdq, auction_mdq, firm_schedule, auction_schedule, lower_tier_schedule] = lists.each_ref().map(|list| &list[..]);
    let table = Table { free_flow, compressor, firm_mdq, auction_mdq, firm_schedule, auction_schedule, lower_tier_schedule };
    let figures = share_day(&table, &mut firm, &mut auction, &mut lower_tier).map(|shares| {
        let totals = [shares.firm, shares.auction, shares.lower_tier, shares.left];
        shares.levels.into_iter().chain(totals.map(u64::from)).collect()
    });
    line("share_day", figures, &[&firm, &auction, &lower_tier])
}

fn answer_overruns(words: &mut Words) -> String {
    let [p, m] = [words.word(), words.word()];
    let [forward_receipt, backhaul_receipt] = [words.word(), words.word()];
    let metered_receipt = words.wide();
    let [forward_delivery, backhaul_delivery] = [words.word(), words.word()];
    let metered_delivery = words.wide();
    let meter = Meter {
        p,
        m,
        hours: words.hours(),
        schedules: [forward_receipt, forward_delivery, backhaul_receipt, backhaul_delivery],
        metered: [metered_receipt, metered_delivery],
    };
    let excused = words.hours();
    line("overruns_of_day", overruns(&meter, Some(&excused)).map(|over| over.to_vec()), &[])
}

/// Of a refused day the stored answers have zeros.
fn answer_readings(words: &mut Words) -> String {
    let mut readings = Readings { kinds: [0; 24], firsts: [0.0; 24], seconds: [0.0; 24] };
    for hour in 0..24 {
        readings.kinds[hour] = words.word() as u8;
        readings.firsts[hour] = f64::from_bits(words.wide());
        readings.seconds[hour] = f64::from_bits(words.wide());
    }
    let mut day = DayGas::default();
    let energy = meter_day(&readings, &mut day);
    let sums = [energy.unwrap_or(0), day.volume];
    let refused = energy.map_or_else(|Refusal { number, place }| [number as u64, place as u64], |_| [0, 0]);
    let told = |figures: &[u64]| figures.iter().map(|figure| format!(" {figure}")).collect::<String>();
    format!("meter_day{}{} :{} :{}", told(&refused), told(&sums), told(&day.energies), told(&day.volumes))
}

/// The stored cases of a program whose routines are answered here.
fn compare_cases(program: &str, answer: impl Fn(u32, &mut Words) -> Option<String>) {
    let input = std::fs::read(format!("{REPOSITORY}/crates/{program}/stdin")).unwrap();
    let output = std::fs::read_to_string(format!("{REPOSITORY}/crates/{program}/stdout")).unwrap();
    let input: Vec<u32> = input.chunks_exact(4).map(|word| u32::from_be_bytes(word.try_into().unwrap())).collect();
    let (mut rest, mut compared) = (&input[..], 0);
    for expected in output.lines() {
        let (case, later) = rest[1..].split_at(rest[0] as usize);
        rest = later;
        if let Some(answer) = answer(case[0], &mut Words(case[1..].iter())) {
            assert_eq!(expected, answer);
            compared += 1;
        }
    }
    assert!(compared > 100, "only {compared} stored cases of {program} are of these routines");
}

#[test]
fn stored_cases() {
    compare_cases("vectors", |routine, words| match routine {
        1 => Some(answer_round(words)),
        2 => Some(answer_day(words)),
        10 => Some(answer_overruns(words)),
        _ => None,
    });
}

#[test]
fn stored_readings() {
    compare_cases("readingvectors", |_, words| Some(answer_readings(words)));
}

fn text_of(file: &[u8]) -> String {
    let mut text = [0; 2_048];
    match list_shares(file, &mut text) {
        Ok(size) => String::from_utf8(text[..size].to_vec()).unwrap(),
        Err(Refusal { number, place }) => format!("REFUSED {number} {place}\n"),
    }
}

#[test]
fn day_files() {
    let program = format!("{REPOSITORY}/reference/answeredfiles.py");
    let Ok(made) = Command::new("python3").args([&program, "500"]).output() else {
        return println!("left out, for want of python3: day files of the second program");
    };
    assert!(made.status.success());
    let mut rest = &made.stdout[..];
    let mut part = || {
        let (length, behind) = rest.split_first_chunk().map(|(length, behind)| (u32::from_be_bytes(*length), behind))?;
        let (part, behind) = behind.split_at(length as usize);
        rest = behind;
        Some(part)
    };
    while let (Some(file), Some(numbers), Some(text)) = (part(), part(), part()) {
        assert_eq!(std::str::from_utf8(text).unwrap(), text_of(file));
        let mut lent = [usize::MAX; MOST_NUMBERS];
        let taken = read_day(file, &mut lent).map_or(0, |day| day.numbers());
        let numbers = numbers.chunks_exact(4).map(|word| u32::from_be_bytes(word.try_into().unwrap()) as usize);
        assert!(numbers.eq(lent[..taken].iter().copied()));
        assert!(lent[taken..].iter().all(|&kept| kept == usize::MAX));
    }
}

#[test]
fn charge_of_the_worked_figure() {
    let meter = Meter {
        p: 1_000,
        m: 1_000,
        hours: Hours { yesterday: [48_000; 11], delivered: [48_000; 24], received: [0; 24] },
        schedules: [0, 1_152, 0, 0],
        metered: [0, 0],
    };
    let mut lent = [0; 5];
    assert_eq!(Ok(103_392), charge(359_000, &meter, None, &mut lent));
    assert_eq!([0, 288_000, 0, 0, 288_000], lent);
    let excused = Hours { yesterday: [1_000; 11], delivered: [1_000; 24], received: [0; 24] };
    assert_eq!(Ok(0), charge(359_000, &meter, Some(&excused), &mut lent));
    assert_eq!([0; 5], lent);
    let above = Hours { yesterday: [48_001; 11], ..excused };
    assert_eq!(Err(Refusal { number: 3, place: 0 }), charge(359_000, &meter, Some(&above), &mut lent));
}
