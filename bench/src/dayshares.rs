//! A day's shares: firm in three rounds, then auction, then lower tier.

use crate::{require, require_rows, rounds::hold, Answer, Refusal, MOST_GIGAJOULES, MOST_ROWS};

/// A day's five lists, in tag 2's order.
pub struct Table<'a> {
    pub free_flow: u32,
    pub compressor: u32,
    pub firm_mdq: &'a [u32],
    pub auction_mdq: &'a [u32],
    pub firm_schedule: &'a [u32],
    pub auction_schedule: &'a [u32],
    pub lower_tier_schedule: &'a [u32],
}

/// The levels of the five rounds, what each class is given together, and LEFT.
#[derive(Clone, Copy, Debug, Default, PartialEq, Eq)]
pub struct Shares {
    pub levels: [u64; 5],
    pub firm: u32,
    pub auction: u32,
    pub lower_tier: u32,
    pub left: u32,
}

/// 4 at the lowest row whose schedule is above zero with its MDQ zero.
fn require_mdqs(mdqs: &[u32], schedules: &[u32]) -> Answer<()> {
    match mdqs.iter().zip(schedules).position(|(&mdq, &schedule)| mdq == 0 && schedule > 0) {
        None => Ok(()),
        Some(place) => Err(Refusal { number: 4, place }),
    }
}

impl Table<'_> {
    fn lists(&self) -> [&[u32]; 5] {
        [self.firm_mdq, self.auction_mdq, self.firm_schedule, self.auction_schedule, self.lower_tier_schedule]
    }

    fn require_sound(&self) -> Answer<()> {
        let rows = self.firm_mdq.len();
        let lists = self.lists();
        require(lists.iter().all(|list| list.len() == rows), 9, 0)?;
        require(self.free_flow <= MOST_GIGAJOULES && self.compressor <= MOST_GIGAJOULES, 3, 0)?;
        require(rows <= MOST_ROWS, 3, 0)?;
        lists.iter().try_for_each(|list| require_rows(list, MOST_GIGAJOULES))?;
        require_mdqs(self.firm_mdq, self.firm_schedule)?;
        require_mdqs(self.auction_mdq, self.auction_schedule)
    }
}

fn sum(figures: &[u32]) -> u32 {
    figures.iter().sum()
}

/// A further round on what is unmet, added to what was given; its level and total.
fn hold_next(capacity: u32, weights: &[u32], schedule: &[u32], given: &mut [u32]) -> (u64, u32) {
    let rows = weights.len();
    let (mut needs, mut shares) = ([0; MOST_ROWS], [0; MOST_ROWS]);
    for ((need, &schedule), &given) in needs.iter_mut().zip(schedule).zip(&*given) {
        *need = schedule - given;
    }
    let level = hold(capacity, weights, &needs[..rows], &mut shares);
    for (given, &share) in given.iter_mut().zip(&shares[..rows]) {
        *given += share;
    }
    (level, sum(&shares[..rows]))
}

/// The three firm rounds: their levels, and what they leave.
fn hold_firm(table: &Table, firm: &mut [u32]) -> ([u64; 3], u32) {
    let rows = table.firm_mdq.len();
    let (mut free_flow_mdq, mut compressor_mdq) = ([0; MOST_ROWS], [0; MOST_ROWS]);
    for ((free_flow, compressor), &mdq) in free_flow_mdq.iter_mut().zip(&mut compressor_mdq).zip(table.firm_mdq) {
        *free_flow = mdq * 3 / 4;
        *compressor = mdq - *free_flow;
    }
    let one = hold(table.free_flow, &free_flow_mdq[..rows], table.firm_schedule, firm);
    let left = table.free_flow - sum(firm);
    let (two, given) = hold_next(table.compressor, &compressor_mdq[..rows], table.firm_schedule, firm);
    let left = left + table.compressor - given;
    let (three, given) = hold_next(left, table.firm_mdq, table.firm_schedule, firm);
    ([one, two, three], left - given)
}

/// Each class's shares go to the front of its list; a refusal leaves all three as they were.
pub fn share_day(table: &Table, firm: &mut [u32], auction: &mut [u32], lower_tier: &mut [u32]) -> Answer<Shares> {
    table.require_sound()?;
    let rows = table.firm_mdq.len();
    require([&*firm, auction, lower_tier].iter().all(|lent| rows <= lent.len()), 7, 0)?;
    let (firm, auction, lower_tier) = (&mut firm[..rows], &mut auction[..rows], &mut lower_tier[..rows]);

    let (levels, offered) = hold_firm(table, firm);
    let mut shares = Shares { firm: sum(firm), left: offered, ..Shares::default() };
    shares.levels[..3].copy_from_slice(&levels);
    auction.fill(0);
    lower_tier.fill(0);
    if firm == table.firm_schedule {
        shares.levels[3] = hold(shares.left, table.auction_mdq, table.auction_schedule, auction);
        shares.auction = sum(auction);
        shares.left -= shares.auction;
        if auction == table.auction_schedule {
            shares.levels[4] = hold(shares.left, table.lower_tier_schedule, table.lower_tier_schedule, lower_tier);
            shares.lower_tier = sum(lower_tier);
            shares.left -= shares.lower_tier;
        }
    }
    Ok(shares)
}
