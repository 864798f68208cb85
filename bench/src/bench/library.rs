//! The proved library's functions, with the plain ones' signatures.

use plain::dayfile::Day;
use plain::dayshares::Table;
use plain::overruns::{Hours, Meter, Overruns};
use plain::readings::{DayGas, Readings};
use plain::{Answer, Refusal};

extern "C" {
    fn cormcushion_check_day(file: *const u8, file_length: usize) -> u64;
    fn cormcushion_read_day(file: *const u8, file_length: usize, day: *mut u32, numbers: *mut usize, room: usize) -> u64;
    fn cormcushion_list_shares(file: *const u8, file_length: usize, text: *mut u8, room: usize) -> u64;
    fn cormcushion_share_round(
        capacity: u32,
        weights: *const u32,
        weight_count: usize,
        needs: *const u32,
        need_count: usize,
        shares: *mut u32,
        room: usize,
    ) -> u64;
    fn cormcushion_share_day(
        free_flow: u32,
        compressor: u32,
        firm_mdq: *const u32,
        firm_mdq_count: usize,
        auction_mdq: *const u32,
        auction_mdq_count: usize,
        firm_schedule: *const u32,
        firm_schedule_count: usize,
        auction_schedule: *const u32,
        auction_schedule_count: usize,
        lower_tier_schedule: *const u32,
        lower_tier_schedule_count: usize,
        firm: *mut u32,
        firm_room: usize,
        auction: *mut u32,
        auction_room: usize,
        lower_tier: *mut u32,
        lower_tier_room: usize,
        levels: *mut u64,
    ) -> u64;
    fn cormcushion_overruns(
        rate: u32,
        p: u32,
        m: u32,
        yesterday: *const u64,
        delivered: *const u64,
        received: *const u64,
        schedules: *const u32,
        metered: *const u64,
        overruns: *mut u64,
    ) -> u64;
    fn cormcushion_overruns_excused(
        rate: u32,
        p: u32,
        m: u32,
        yesterday: *const u64,
        delivered: *const u64,
        received: *const u64,
        schedules: *const u32,
        metered: *const u64,
        excused_yesterday: *const u64,
        excused_delivered: *const u64,
        excused_received: *const u64,
        overruns: *mut u64,
    ) -> u64;
    fn cormcushion_readings(
        kinds: *const u8,
        firsts: *const f64,
        seconds: *const f64,
        energies: *mut u64,
        volumes: *mut u64,
        volume: *mut u64,
    ) -> u64;
}

/// The last fifteen digits of an answer are a figure or a place, the two before them the refusal's number.
const NUMBER: u64 = 1_000_000_000_000_000;

fn unpacked(answer: u64) -> Answer<u64> {
    match (answer / NUMBER % 100, answer % NUMBER) {
        (0, figure) => Ok(figure),
        (number, place) => Err(Refusal { number: number as u8, place: place as usize }),
    }
}

pub fn check_day(file: &[u8]) -> Answer<u64> {
    unpacked(unsafe { cormcushion_check_day(file.as_ptr(), file.len()) })
}

pub fn read_day(file: &[u8], lent: &mut [usize]) -> Answer<Day> {
    let mut day = [0; 8];
    let answer = unsafe { cormcushion_read_day(file.as_ptr(), file.len(), day.as_mut_ptr(), lent.as_mut_ptr(), lent.len()) };
    unpacked(answer)?;
    let [day, free_flow, compressor, counts @ ..] = day;
    let [shippers, points, entries, meters, excused] = counts.map(|count| count as usize);
    Ok(Day { day, free_flow, compressor, shippers, points, entries, meters, excused })
}

pub fn list_shares(file: &[u8], lent: &mut [u8]) -> Answer<usize> {
    let answer = unsafe { cormcushion_list_shares(file.as_ptr(), file.len(), lent.as_mut_ptr(), lent.len()) };
    unpacked(answer).map(|size| size as usize)
}

pub fn share_round(capacity: u32, weights: &[u32], needs: &[u32], shares: &mut [u32]) -> Answer<u64> {
    unpacked(unsafe {
        cormcushion_share_round(
            capacity,
            weights.as_ptr(),
            weights.len(),
            needs.as_ptr(),
            needs.len(),
            shares.as_mut_ptr(),
            shares.len(),
        )
    })
}

/// LEFT, with the levels in a list.
pub fn share_day(
    table: &Table,
    firm: &mut [u32],
    auction: &mut [u32],
    lower_tier: &mut [u32],
    levels: &mut [u64; 5],
) -> Answer<u64> {
    unpacked(unsafe {
        cormcushion_share_day(
            table.free_flow,
            table.compressor,
            table.firm_mdq.as_ptr(),
            table.firm_mdq.len(),
            table.auction_mdq.as_ptr(),
            table.auction_mdq.len(),
            table.firm_schedule.as_ptr(),
            table.firm_schedule.len(),
            table.auction_schedule.as_ptr(),
            table.auction_schedule.len(),
            table.lower_tier_schedule.as_ptr(),
            table.lower_tier_schedule.len(),
            firm.as_mut_ptr(),
            firm.len(),
            auction.as_mut_ptr(),
            auction.len(),
            lower_tier.as_mut_ptr(),
            lower_tier.len(),
            levels.as_mut_ptr(),
        )
    })
}

pub fn charge(rate: u32, meter: &Meter, excused: Option<&Hours>, lent: &mut Overruns) -> Answer<u64> {
    match excused {
        None => charge_all(rate, meter, lent),
        Some(excused) => charge_less(rate, meter, excused, lent),
    }
}

fn charge_all(rate: u32, meter: &Meter, lent: &mut Overruns) -> Answer<u64> {
    unpacked(unsafe {
        cormcushion_overruns(
            rate,
            meter.p,
            meter.m,
            meter.hours.yesterday.as_ptr(),
            meter.hours.delivered.as_ptr(),
            meter.hours.received.as_ptr(),
            meter.schedules.as_ptr(),
            meter.metered.as_ptr(),
            lent.as_mut_ptr(),
        )
    })
}

fn charge_less(rate: u32, meter: &Meter, excused: &Hours, lent: &mut Overruns) -> Answer<u64> {
    unpacked(unsafe {
        cormcushion_overruns_excused(
            rate,
            meter.p,
            meter.m,
            meter.hours.yesterday.as_ptr(),
            meter.hours.delivered.as_ptr(),
            meter.hours.received.as_ptr(),
            meter.schedules.as_ptr(),
            meter.metered.as_ptr(),
            excused.yesterday.as_ptr(),
            excused.delivered.as_ptr(),
            excused.received.as_ptr(),
            lent.as_mut_ptr(),
        )
    })
}

pub fn meter_day(readings: &Readings, lent: &mut DayGas) -> Answer<u64> {
    unpacked(unsafe {
        cormcushion_readings(
            readings.kinds.as_ptr(),
            readings.firsts.as_ptr(),
            readings.seconds.as_ptr(),
            lent.energies.as_mut_ptr(),
            lent.volumes.as_mut_ptr(),
            &mut lent.volume,
        )
    })
}
