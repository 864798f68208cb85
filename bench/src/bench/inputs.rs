//! Rounds, days, meters, readings and day files by chance.

use crate::chance::Chance;
use plain::dayshares::Table;
use plain::overruns::{Hours, Meter};
use plain::readings::Readings;

const GIGAJOULES: u64 = 1_000_000;
const MEGAJOULES: u64 = 100_000_000;
const BACKHAUL: u64 = 2_400_000_000;

fn list(chance: &mut Chance, rows: usize, most: u64) -> Vec<u32> {
    (0..rows).map(|_| chance.some(most) as u32).collect()
}

fn sum(figures: &[u32]) -> u64 {
    figures.iter().map(|&figure| figure as u64).sum()
}

/// Figures of a case are of one size.
fn size(chance: &mut Chance) -> u64 {
    [20, 10_000, GIGAJOULES, GIGAJOULES][chance.up_to(3) as usize]
}

pub struct Round {
    pub capacity: u32,
    pub weights: Vec<u32>,
    pub needs: Vec<u32>,
}

/// A round whose capacity is a part of what is asked.
pub fn round(chance: &mut Chance, rows: usize) -> Round {
    let most = size(chance);
    let (weights, needs) = (list(chance, rows, most), list(chance, rows, most));
    let asked = sum(&needs).min(2 * GIGAJOULES);
    Round { capacity: chance.up_to(asked) as u32, weights, needs }
}

pub struct DayTable {
    pub free_flow: u32,
    pub compressor: u32,
    pub lists: [Vec<u32>; 5],
}

impl DayTable {
    pub fn table(&self) -> Table<'_> {
        let [firm_mdq, auction_mdq, firm_schedule, auction_schedule, lower_tier_schedule] = &self.lists;
        Table {
            free_flow: self.free_flow,
            compressor: self.compressor,
            firm_mdq,
            auction_mdq,
            firm_schedule,
            auction_schedule,
            lower_tier_schedule,
        }
    }
}

/// A sound day, with enough for some of its classes and a part of what the next one asks.
pub fn day(chance: &mut Chance, rows: usize) -> DayTable {
    let most = size(chance);
    let [firm_mdq, auction_mdq] = [list(chance, rows, most), list(chance, rows, most)];
    let mut asked = |mdqs: &[u32]| mdqs.iter().map(|&mdq| if mdq > 0 { chance.some(most) as u32 } else { 0 }).collect();
    let [firm, auction]: [Vec<u32>; 2] = [asked(&firm_mdq), asked(&auction_mdq)];
    let lower_tier = list(chance, rows, most);
    let classes = [sum(&firm), sum(&auction), sum(&lower_tier)];
    let full = chance.up_to(2) as usize;
    let capacity = classes[..full].iter().sum::<u64>() + chance.up_to(classes[full]);
    let capacity = capacity.min(2 * GIGAJOULES);
    let least = capacity.saturating_sub(GIGAJOULES);
    let free_flow = least + chance.up_to(capacity.min(GIGAJOULES) - least);
    DayTable {
        free_flow: free_flow as u32,
        compressor: (capacity - free_flow) as u32,
        lists: [firm_mdq, auction_mdq, firm, auction, lower_tier],
    }
}

/// A meter with hours about its limits.
pub fn meter(chance: &mut Chance) -> Meter {
    let most = size(chance);
    let m = chance.some(most) as u32;
    let p = chance.up_to(m as u64) as u32;
    let most = (50 * m as u64 + 10_000).min(MEGAJOULES);
    Meter {
        p,
        m,
        hours: Hours {
            yesterday: std::array::from_fn(|_| chance.up_to(most)),
            delivered: std::array::from_fn(|_| chance.up_to(most)),
            received: std::array::from_fn(|_| chance.up_to(most)),
        },
        schedules: std::array::from_fn(|_| chance.some(GIGAJOULES) as u32),
        metered: std::array::from_fn(|_| chance.some(BACKHAUL)),
    }
}

/// What is excused of a meter's hours: nothing, all or a part.
pub fn excused(chance: &mut Chance, metered: &Hours) -> Hours {
    let mut of = |hour: u64| chance.some(hour.min(MEGAJOULES));
    Hours {
        yesterday: metered.yesterday.map(&mut of),
        delivered: metered.delivered.map(&mut of),
        received: metered.received.map(&mut of),
    }
}

/// A day of hours as flow computers send them: most measured, some substituted or missing, but for the first.
pub fn readings(chance: &mut Chance) -> Readings {
    let mut kinds = std::array::from_fn(|_| [0, 0, 0, 0, 0, 0, 1, 2][chance.up_to(7) as usize]);
    kinds[0] = 0;
    let most = [1_000, 100_000, 1_000_000][chance.up_to(2) as usize];
    Readings {
        kinds,
        firsts: std::array::from_fn(|_| chance.up_to(most * 1_024) as f64 / 1_024.0),
        seconds: std::array::from_fn(|_| 30.0 + chance.up_to(1_000_000) as f64 / 100_000.0),
    }
}

fn field(file: &mut Vec<u8>, tag: u8, body: &[u8]) {
    file.push(tag);
    file.extend((body.len() as u16).to_be_bytes());
    file.extend(body);
}

fn numbers(body: &mut Vec<u8>, figures: impl IntoIterator<Item = u64>) {
    figures.into_iter().for_each(|figure| body.extend((figure as u32).to_be_bytes()));
}

fn hours(body: &mut Vec<u8>, hours: &Hours) {
    numbers(body, hours.yesterday.into_iter().chain(hours.delivered).chain(hours.received));
}

/// How many fields of tags 2 to 5 and 9 a file has.
#[derive(Clone, Copy)]
pub struct Counts {
    pub shippers: usize,
    pub points: usize,
    pub entries: usize,
    pub meters: usize,
    pub excused: usize,
}

/// As many as there may be, and as many without excused hours.
pub const FULL: Counts = Counts { shippers: 64, points: 32, entries: 512, meters: 64, excused: 64 };
pub const UNEXCUSED: Counts = Counts { excused: 0, ..FULL };

fn meter_field(file: &mut Vec<u8>, name: u16, meter: &Meter) {
    let mut body = name.to_be_bytes().to_vec();
    numbers(&mut body, [meter.p as u64, meter.m as u64]);
    hours(&mut body, &meter.hours);
    numbers(&mut body, meter.schedules.map(u64::from).into_iter().chain(meter.metered));
    field(file, 5, &body);
}

fn excused_field(chance: &mut Chance, file: &mut Vec<u8>, name: u16, metered: &Hours) {
    let mut body = name.to_be_bytes().to_vec();
    hours(&mut body, &excused(chance, metered));
    field(file, 9, &body);
}

/// A sound file; its points are receipt and delivery in turn halves, its excused hours are of meters spread over all.
pub fn file(chance: &mut Chance, counts: Counts) -> Vec<u8> {
    let mut file = Vec::new();
    let day = day(chance, counts.shippers);
    let mut body = Vec::new();
    numbers(&mut body, [chance.some(0xFFFF_FFFF), day.free_flow as u64, day.compressor as u64]);
    field(&mut file, 1, &body);
    let names = chance.names(counts.shippers);
    for (row, name) in names.iter().enumerate() {
        let mut body = name.to_be_bytes().to_vec();
        numbers(&mut body, day.lists.iter().map(|list| list[row] as u64));
        field(&mut file, 2, &body);
    }
    let receipts = counts.points / 2;
    let points = [chance.names(receipts), chance.names(counts.points - receipts)];
    let keys: Vec<(u8, u16)> = (0..2).flat_map(|side| points[side].iter().map(move |&point| (side as u8, point))).collect();
    for &(side, point) in &keys {
        let [high, low] = point.to_be_bytes();
        let mut body = vec![side, high, low];
        numbers(&mut body, [chance.some(MEGAJOULES)]);
        field(&mut file, 3, &body);
    }
    let pairs: Vec<_> = keys.iter().flat_map(|&key| names.iter().map(move |&name| (key, name))).collect();
    let entries = counts.entries.min(pairs.len());
    for entry in 0..entries {
        let ((side, point), name) = pairs[entry * pairs.len() / entries];
        let mut body = vec![side];
        body.extend(point.to_be_bytes());
        body.extend(name.to_be_bytes());
        numbers(&mut body, [chance.some(MEGAJOULES)]);
        field(&mut file, 4, &body);
    }
    let meters: Vec<_> = names.iter().take(counts.meters).map(|&name| (name, meter(chance))).collect();
    meters.iter().for_each(|(name, meter)| meter_field(&mut file, *name, meter));
    let excused = counts.excused.min(meters.len());
    for row in 0..excused {
        let (name, meter) = &meters[row * meters.len() / excused];
        excused_field(chance, &mut file, *name, &meter.hours);
    }
    file
}

/// Where each field of a file begins and ends, as far as its headers lead.
fn fields(file: &[u8]) -> Vec<std::ops::Range<usize>> {
    let mut fields = Vec::new();
    let mut at = 0;
    while at + 3 <= file.len() {
        let end = at + 3 + u16::from_be_bytes([file[at + 1], file[at + 2]]) as usize;
        if end > file.len() {
            break;
        }
        fields.push(at..end);
        at = end;
    }
    fields
}

/// A field put once more before or behind another, or left out.
fn move_field(chance: &mut Chance, file: &mut Vec<u8>) {
    let fields = fields(file);
    if fields.is_empty() {
        return;
    }
    let one = fields[chance.up_to(fields.len() as u64 - 1) as usize].clone();
    let other = fields[chance.up_to(fields.len() as u64 - 1) as usize].start;
    let field = file[one.clone()].to_vec();
    match chance.up_to(2) {
        0 => _ = file.splice(one.end..one.end, field),
        1 => _ = file.splice(other..other, field),
        _ => _ = file.drain(one),
    }
}

/// A byte changed to another.
fn change_byte(chance: &mut Chance, file: &mut [u8]) {
    if !file.is_empty() {
        let at = chance.up_to(file.len() as u64 - 1) as usize;
        file[at] = [file[at] ^ 1, file[at].wrapping_add(1), 0, chance.up_to(255) as u8][chance.up_to(3) as usize];
    }
}

/// A byte or a field changed, bytes cut off or put behind.
pub fn damage(chance: &mut Chance, file: &mut Vec<u8>) {
    match chance.up_to(5) {
        0 => file.truncate(chance.up_to(file.len() as u64) as usize),
        1 => (0..1 + chance.up_to(30)).for_each(|_| file.push(chance.up_to(9) as u8)),
        2 | 3 => move_field(chance, file),
        _ => change_byte(chance, file),
    }
}
