//! Document 01's rules, and a flow computer's readings, in plain Rust, written for speed alone. Nothing here is proved.

pub mod dayfile;
pub mod dayshares;
pub mod listing;
pub mod overruns;
pub mod readings;
pub mod rounds;

/// Rows in any list of shippers.
pub const MOST_ROWS: usize = 64;

/// MDQ, schedule, daily capacity, a round's weight and need.
pub const MOST_GIGAJOULES: u32 = 1_000_000;

/// A metered hour, an hourly capacity, a reserved entitlement.
pub const MOST_MEGAJOULES: u32 = 100_000_000;

/// Backhaul metered over a day.
pub const MOST_BACKHAUL: u32 = 2_400_000_000;

/// 01's number, and the place: a byte of a file, a row of a list, else 0.
#[derive(Clone, Copy, Debug, PartialEq, Eq)]
pub struct Refusal {
    pub number: u8,
    pub place: usize,
}

pub type Answer<T> = Result<T, Refusal>;

/// Refuses with a number and place unless the test is kept.
#[inline]
pub fn require(kept: bool, number: u8, place: usize) -> Answer<()> {
    if kept {
        Ok(())
    } else {
        Err(Refusal { number, place })
    }
}

/// 3 at the lowest row beyond the bound.
#[inline]
pub fn require_rows<T: Copy + PartialOrd>(figures: &[T], most: T) -> Answer<()> {
    // most lists are sound: one pass without a way out is quicker, and only a faulty list is searched
    if figures.iter().fold(true, |kept, &figure| kept & (figure <= most)) {
        return Ok(());
    }
    let place = figures.iter().take_while(|&&figure| figure <= most).count();
    Err(Refusal { number: 3, place })
}
