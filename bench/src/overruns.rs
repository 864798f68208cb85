//! The overruns of a shipper's day, and their charge.

use crate::{require, require_rows, Answer, Refusal, MOST_BACKHAUL, MOST_GIGAJOULES, MOST_MEGAJOULES};

const MOST_RATE: u32 = 100_000_000;

/// Hours of a meter, metered or excused (cl. 5.4): delivered ones of yesterday, both sides' of today.
#[derive(Clone, Copy, Debug)]
pub struct Hours {
    pub yesterday: [u64; 11],
    pub delivered: [u64; 24],
    pub received: [u64; 24],
}

/// A tag 5 field's figures.
#[derive(Clone, Copy, Debug)]
pub struct Meter {
    pub p: u32,
    pub m: u32,
    pub hours: Hours,
    /// forward receipt, forward delivery, backhaul receipt, backhaul delivery
    pub schedules: [u32; 4],
    /// backhaul metered: receipt, delivery
    pub metered: [u64; 2],
}

/// Megajoules: hourly, twelve-hourly, daily receipt, daily delivery, the greatest.
pub type Overruns = [u64; 5];

/// 3 at the first hour excused more than was metered in it.
fn require_no_more(excused: &[u64], metered: &[u64]) -> Answer<()> {
    let pairs = || excused.iter().zip(metered);
    if pairs().fold(true, |kept, (quantity, hour)| kept & (quantity <= hour)) {
        return Ok(());
    }
    let place = pairs().take_while(|(quantity, hour)| quantity <= hour).count();
    Err(Refusal { number: 3, place })
}

impl Hours {
    fn require_bounded(&self) -> Answer<()> {
        require_rows(&self.yesterday, MOST_MEGAJOULES as u64)?;
        require_rows(&self.delivered, MOST_MEGAJOULES as u64)?;
        require_rows(&self.received, MOST_MEGAJOULES as u64)
    }

    /// The hours compared: metered less excused.
    fn less(&self, excused: &Hours) -> Answer<Hours> {
        require_no_more(&excused.yesterday, &self.yesterday)?;
        require_no_more(&excused.delivered, &self.delivered)?;
        require_no_more(&excused.received, &self.received)?;
        Ok(Hours {
            yesterday: std::array::from_fn(|hour| self.yesterday[hour] - excused.yesterday[hour]),
            delivered: std::array::from_fn(|hour| self.delivered[hour] - excused.delivered[hour]),
            received: std::array::from_fn(|hour| self.received[hour] - excused.received[hour]),
        })
    }

    fn hourly(&self, m: u64) -> u64 {
        let hours = self.delivered.iter().zip(&self.received);
        hours.map(|(&delivered, &received)| delivered.saturating_sub(50 * m).max(received.saturating_sub(44 * m))).sum()
    }

    /// Each period is the one before without its first hour and with one more of today.
    fn twelve_hourly(&self, p: u64, m: u64) -> u64 {
        let mut gas: u64 = self.yesterday.iter().sum();
        let mut limit = 47 * 12 * p;
        let mut over = 0;
        for hour in 0..24 {
            gas += self.delivered[hour];
            if hour < 12 {
                limit = limit + 47 * m - 47 * p;
            }
            over += gas.saturating_sub(limit);
            gas -= if hour < 11 { self.yesterday[hour] } else { self.delivered[hour - 11] };
        }
        over
    }
}

impl Meter {
    fn require_sound(&self) -> Answer<()> {
        let singles = [self.p, self.m].iter().chain(&self.schedules).all(|&figure| figure <= MOST_GIGAJOULES);
        require(singles && self.metered.iter().all(|&figure| figure <= MOST_BACKHAUL as u64), 3, 0)?;
        self.hours.require_bounded()
    }

    /// The overruns where these hours are held to the limits of an hour and of twelve; the day counts all that was metered.
    fn overruns_of(&self, compared: &Hours) -> Overruns {
        let (p, m) = (self.p as u64, self.m as u64);
        let hourly = compared.hourly(m);
        let twelve_hourly = compared.twelve_hourly(p, m);
        let receipt = self.daily(&self.hours.received, 0);
        let delivery = self.daily(&self.hours.delivered, 1);
        [hourly, twelve_hourly, receipt, delivery, hourly.max(twelve_hourly).max(receipt).max(delivery)]
    }

    fn daily(&self, hours: &[u64; 24], side: usize) -> u64 {
        let scheduled = 1_000 * (self.schedules[side] as u64 + self.schedules[2 + side] as u64);
        (hours.iter().sum::<u64>() + self.metered[side]).saturating_sub(scheduled)
    }
}

/// Nothing may be excused at all.
pub fn overruns(meter: &Meter, excused: Option<&Hours>) -> Answer<Overruns> {
    meter.require_sound()?;
    match excused {
        None => Ok(meter.overruns_of(&meter.hours)),
        Some(excused) => Ok(meter.overruns_of(&meter.hours.less(excused)?)),
    }
}

/// The charge in cents for the greatest; the overruns go to a lent list.
pub fn charge(rate: u32, meter: &Meter, excused: Option<&Hours>, lent: &mut Overruns) -> Answer<u64> {
    require(rate <= MOST_RATE, 3, 0)?;
    let over = overruns(meter, excused)?;
    *lent = over;
    Ok((rate as u64 * over[4] + 500_000) / 1_000_000)
}
