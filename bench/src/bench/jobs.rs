//! The work that is timed: the same inputs for both sides, one in a turn.

use crate::chance::Chance;
use crate::inputs::{self, Counts, FULL, UNEXCUSED};
use crate::library;
use plain::dayfile::{read_day, MOST_NUMBERS};
use plain::dayshares::share_day;
use plain::listing::list_shares;
use plain::overruns::charge;
use plain::readings::{meter_day, DayGas};
use plain::rounds::share_round;
use std::hint::black_box;

/// How many inputs a job has: enough that no branch is learnt by heart.
pub const INPUTS: usize = 64;

const RATE: u32 = 359_000;

/// One side on the input of a turn.
pub type Side = Box<dyn FnMut(usize)>;

pub struct Job {
    pub name: String,
    pub ours: Side,
    pub plain: Side,
}

/// Inputs that both sides use.
fn made<T>(make: impl FnMut() -> T) -> &'static [T] {
    Box::leak(std::iter::repeat_with(make).take(INPUTS).collect())
}

pub fn rounds(rows: usize) -> Job {
    let chance = &mut Chance::new();
    let rounds = made(|| inputs::round(chance, rows));
    let [mut ours, mut plain] = [[0; 64]; 2];
    Job {
        name: format!("one round of {rows} rows"),
        ours: Box::new(move |turn| {
            let round = &rounds[turn % INPUTS];
            _ = black_box(library::share_round(round.capacity, &round.weights, &round.needs, black_box(&mut ours)));
        }),
        plain: Box::new(move |turn| {
            let round = &rounds[turn % INPUTS];
            _ = black_box(share_round(round.capacity, &round.weights, &round.needs, black_box(&mut plain)));
        }),
    }
}

pub fn days(rows: usize) -> Job {
    let chance = &mut Chance::new();
    let days = made(|| inputs::day(chance, rows));
    let [mut ours, mut plain] = [[[0; 64]; 3]; 2];
    Job {
        name: format!("a day of {rows} shippers"),
        ours: Box::new(move |turn| {
            let day = &days[turn % INPUTS];
            let [firm, auction, lower_tier] = black_box(&mut ours);
            _ = black_box(library::share_day(&day.table(), firm, auction, lower_tier, &mut [0; 5]));
        }),
        plain: Box::new(move |turn| {
            let day = &days[turn % INPUTS];
            let [firm, auction, lower_tier] = black_box(&mut plain);
            _ = black_box(share_day(&day.table(), firm, auction, lower_tier));
        }),
    }
}

pub fn full_files(counts: Counts, kind: &str) -> Job {
    let chance = &mut Chance::new();
    let files = made(|| inputs::file(chance, counts));
    let bytes = files[0].len();
    assert!(files.iter().all(|file| file.len() == bytes));
    let [mut ours, mut plain] = [[0; MOST_NUMBERS]; 2];
    Job {
        name: format!("reading a full file {kind}, {bytes} bytes"),
        ours: Box::new(move |turn| {
            let file = &files[turn % INPUTS];
            _ = black_box(library::read_day(file, black_box(&mut ours)));
        }),
        plain: Box::new(move |turn| {
            let file = &files[turn % INPUTS];
            _ = black_box(read_day(file, black_box(&mut plain)));
        }),
    }
}

/// All meters in a turn.
pub fn meters() -> Job {
    let chance = &mut Chance::new();
    let meters = made(|| inputs::meter(chance));
    Job {
        name: format!("overruns of {INPUTS} meters"),
        ours: Box::new(move |_| {
            for meter in meters {
                _ = black_box(library::charge(RATE, meter, None, black_box(&mut [0; 5])));
            }
        }),
        plain: Box::new(move |_| {
            for meter in meters {
                _ = black_box(charge(RATE, meter, None, black_box(&mut [0; 5])));
            }
        }),
    }
}

/// The same with what is excused of each.
pub fn excused_meters() -> Job {
    let chance = &mut Chance::new();
    let meters = made(|| {
        let meter = inputs::meter(chance);
        (meter, inputs::excused(chance, &meter.hours))
    });
    Job {
        name: format!("overruns of {INPUTS} meters with excused hours"),
        ours: Box::new(move |_| {
            for (meter, excused) in meters {
                _ = black_box(library::charge(RATE, meter, Some(excused), black_box(&mut [0; 5])));
            }
        }),
        plain: Box::new(move |_| {
            for (meter, excused) in meters {
                _ = black_box(charge(RATE, meter, Some(excused), black_box(&mut [0; 5])));
            }
        }),
    }
}

/// All days of readings in a turn.
pub fn readings() -> Job {
    let chance = &mut Chance::new();
    let days = made(|| inputs::readings(chance));
    let [mut ours, mut plain] = [DayGas::default(); 2];
    Job {
        name: format!("{INPUTS} days of readings"),
        ours: Box::new(move |_| {
            for day in days {
                _ = black_box(library::meter_day(day, black_box(&mut ours)));
            }
        }),
        plain: Box::new(move |_| {
            for day in days {
                _ = black_box(meter_day(day, black_box(&mut plain)));
            }
        }),
    }
}

/// Files whose every table has a part of its rows, but for excused hours.
pub fn listings(rows: usize) -> Job {
    let chance = &mut Chance::new();
    let counts = Counts { shippers: rows, points: rows / 2, entries: 8 * rows, meters: rows, excused: 0 };
    let files = made(|| inputs::file(chance, counts));
    let [mut ours, mut plain] = [[0; 2_048]; 2];
    Job {
        name: format!("file bytes to listing text, {rows} shippers"),
        ours: Box::new(move |turn| {
            let file = &files[turn % INPUTS];
            _ = black_box(library::list_shares(file, black_box(&mut ours)));
        }),
        plain: Box::new(move |turn| {
            let file = &files[turn % INPUTS];
            _ = black_box(list_shares(file, black_box(&mut plain)));
        }),
    }
}

/// The jobs of the table.
pub fn all() -> Vec<Job> {
    vec![
        rounds(64),
        days(64),
        full_files(UNEXCUSED, "without excused hours"),
        meters(),
        readings(),
        listings(64),
        full_files(FULL, "with excused hours"),
        excused_meters(),
    ]
}
