//! Both sides on thousands of inputs: equal answers, refusals, places, and lent lists to their last element.

use crate::chance::Chance;
use crate::{inputs, library};
use plain::dayfile::{read_day, MOST_NUMBERS};
use plain::dayshares::share_day;
use plain::listing::list_shares;
use plain::overruns::{charge, Hours};
use plain::readings::{meter_day, DayGas};
use plain::rounds::share_round;

/// What a lent list holds before a call, so that what is written and what is kept both show.
const LENT: u32 = 4_000_000_000;

fn rows(chance: &mut Chance) -> usize {
    [0, 1, 2, 3, 5, 8, 16, 33, 63, 64, 64, 65][chance.up_to(11) as usize]
}

/// Now and then a figure beyond its bound.
fn spoil(chance: &mut Chance, list: &mut Vec<u32>) {
    if !list.is_empty() && chance.one_in(6) {
        let row = chance.up_to(list.len() as u64 - 1) as usize;
        list[row] = [1_000_000, 1_000_001, u32::MAX, 0][chance.up_to(3) as usize];
    }
    if chance.one_in(25) {
        list.pop();
    }
}

/// Room for so many elements: exact, a little more, one too few or any less.
fn room(chance: &mut Chance, needed: usize) -> usize {
    match chance.up_to(15) {
        0 => chance.up_to(needed as u64) as usize,
        1 => needed.saturating_sub(1),
        2 => needed,
        more => needed + more as usize,
    }
}

fn round(chance: &mut Chance) {
    let rows = rows(chance);
    let mut round = inputs::round(chance, rows);
    spoil(chance, &mut round.weights);
    spoil(chance, &mut round.needs);
    if chance.one_in(20) {
        round.capacity = [2_000_000, 2_000_001, u32::MAX][chance.up_to(2) as usize];
    }
    let mut ours = vec![LENT; room(chance, rows)];
    let mut theirs = ours.clone();
    let answer = library::share_round(round.capacity, &round.weights, &round.needs, &mut ours);
    assert_eq!(share_round(round.capacity, &round.weights, &round.needs, &mut theirs), answer);
    assert_eq!(theirs, ours);
}

fn day(chance: &mut Chance) {
    let rows = rows(chance);
    let mut day = inputs::day(chance, rows);
    if chance.one_in(3) {
        day.lists.iter_mut().for_each(|list| spoil(chance, list));
    }
    let mut ours: [Vec<u32>; 3] = std::array::from_fn(|_| vec![LENT; room(chance, rows)]);
    let mut theirs = ours.clone();
    let mut levels = [LENT as u64; 5];
    let [firm, auction, lower_tier] = &mut ours;
    let answer = library::share_day(&day.table(), firm, auction, lower_tier, &mut levels);
    let [firm, auction, lower_tier] = &mut theirs;
    let shares = share_day(&day.table(), firm, auction, lower_tier);
    assert_eq!(shares.map(|shares| shares.left as u64), answer);
    assert_eq!(shares.map_or([LENT as u64; 5], |shares| shares.levels), levels);
    assert_eq!(theirs, ours);
}

fn meter(chance: &mut Chance) {
    let mut meter = inputs::meter(chance);
    if chance.one_in(3) {
        let hour = chance.up_to(23) as usize;
        let beyond = [100_000_000, 100_000_001, u64::MAX][chance.up_to(2) as usize];
        match chance.up_to(5) {
            0 => meter.hours.yesterday[hour % 11] = beyond,
            1 => meter.hours.delivered[hour] = beyond,
            2 => meter.hours.received[hour] = beyond,
            3 => meter.m = 1_000_001,
            4 => meter.schedules[hour % 4] = 1_000_001,
            _ => meter.metered[hour % 2] = 2_400_000_001,
        }
    }
    let rate = [359_000, 0, 100_000_000, 100_000_001][chance.up_to(3) as usize];
    let excused = excused(chance, &meter.hours);
    for excused in [None, Some(&excused)] {
        let [mut ours, mut theirs] = [[u64::MAX; 5]; 2];
        assert_eq!(charge(rate, &meter, excused, &mut theirs), library::charge(rate, &meter, excused, &mut ours));
        assert_eq!(theirs, ours);
    }
}

/// Now and then one hour is excused one more than was metered in it, or as much as there can be.
fn excused(chance: &mut Chance, metered: &Hours) -> Hours {
    let mut excused = inputs::excused(chance, metered);
    let hour = chance.up_to(23) as usize;
    let more = |hour: u64| [hour.saturating_add(1), u64::MAX];
    let most = chance.up_to(1) as usize;
    match chance.up_to(8) {
        0 => excused.yesterday[hour % 11] = more(metered.yesterday[hour % 11])[most],
        1 => excused.delivered[hour] = more(metered.delivered[hour])[most],
        2 => excused.received[hour] = more(metered.received[hour])[most],
        _ => {}
    }
    excused
}

/// Numbers about whole ones and the bound, below zero, and by any bits.
fn number(chance: &mut Chance) -> f64 {
    let whole = chance.some(100_000_001) as f64;
    match chance.up_to(7) {
        0 => f64::from_bits(chance.up_to(u64::MAX - 1)),
        1 => f64::from_bits(0x7FF0_0000_0000_0000 + chance.some(1 << 52)),
        2 => f64::from_bits(chance.some(1 << 53)),
        3 => -f64::from_bits(chance.some(2)),
        4 => f64::from_bits(whole.to_bits() + 1),
        5 => f64::from_bits((whole + 1.0).to_bits() - 1),
        _ => whole,
    }
}

fn readings(chance: &mut Chance) {
    let mut readings = inputs::readings(chance);
    let most = if chance.one_in(3) { 30 } else { 999 };
    for hour in 0..24 {
        match chance.up_to(most) {
            0 => readings.kinds[hour] = chance.some(255) as u8,
            1 | 2 => readings.firsts[hour] = number(chance),
            3 => readings.seconds[hour] = number(chance),
            4 => (readings.firsts[hour], readings.seconds[hour]) = (number(chance), 1.0),
            5 => (readings.firsts[hour], readings.seconds[hour]) = (3.0, 1.0 / 3.0),
            _ => {}
        }
    }
    let [mut ours, mut theirs] = [DayGas { energies: [u64::MAX; 24], volumes: [u64::MAX; 24], volume: u64::MAX }; 2];
    assert_eq!(meter_day(&readings, &mut theirs), library::meter_day(&readings, &mut ours));
    assert_eq!(theirs, ours);
}

/// Every table with all of its rows, one too many, or some.
fn counts(chance: &mut Chance) -> inputs::Counts {
    let part = [0, 2, 10, 64, 64][chance.up_to(4) as usize];
    let full = chance.one_in(3);
    let mut some = |most: usize| match full && part == 64 {
        true => most + chance.one_in(20) as usize,
        false => chance.up_to((most * part / 64) as u64) as usize,
    };
    inputs::Counts { shippers: some(64), points: some(32), entries: some(512), meters: some(64), excused: some(64) }
}

fn file(chance: &mut Chance) {
    let counts = counts(chance);
    let mut file = inputs::file(chance, counts);
    (0..[0, 0, 1, 1, 2][chance.up_to(4) as usize]).for_each(|_| inputs::damage(chance, &mut file));

    let checked = read_day(&file, &mut [0; MOST_NUMBERS]).map(|day| day.numbers());
    assert_eq!(checked, library::check_day(&file).map(|numbers| numbers as usize));

    let mut ours = vec![LENT as usize; room(chance, checked.unwrap_or(0))];
    let mut theirs = ours.clone();
    assert_eq!(read_day(&file, &mut theirs), library::read_day(&file, &mut ours));
    assert_eq!(theirs, ours);

    let size = list_shares(&file, &mut [0; 2_048]).unwrap_or(0);
    let mut ours = vec![0xAA; room(chance, size)];
    let mut theirs = ours.clone();
    assert_eq!(list_shares(&file, &mut theirs), library::list_shares(&file, &mut ours));
    assert_eq!(theirs, ours);
}

/// Fails at the first difference.
pub fn compare(turns: usize) {
    let chance = &mut Chance::new();
    for _ in 0..turns {
        [round, day, meter, readings, file].iter().for_each(|compared| compared(chance));
    }
    println!("compared: {turns} rounds, days, meters, readings and files each, with no difference");
}
