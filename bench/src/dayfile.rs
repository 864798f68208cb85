//! The day file's reader.

use crate::{require, Answer, Refusal, MOST_BACKHAUL, MOST_GIGAJOULES, MOST_MEGAJOULES};

/// A full file's numbers.
pub const MOST_NUMBERS: usize = 10_720;

#[derive(Clone, Copy, Debug, Default, PartialEq, Eq)]
pub struct Day {
    pub day: u32,
    pub free_flow: u32,
    pub compressor: u32,
    pub shippers: usize,
    pub points: usize,
    pub entries: usize,
    pub meters: usize,
    pub excused: usize,
}

impl Day {
    pub fn numbers(&self) -> usize {
        6 * self.shippers + 3 * self.points + 4 * self.entries + 68 * self.meters + 60 * self.excused
    }
}

/// Where the reader is, and how many numbers it has taken.
struct Reader<'a> {
    file: &'a [u8],
    at: usize,
    numbers: &'a mut [usize; MOST_NUMBERS],
    count: usize,
}

#[inline]
fn u16_at(body: &[u8], at: usize) -> u32 {
    u16::from_be_bytes([body[at], body[at + 1]]) as u32
}

#[inline]
fn u32_at(body: &[u8], at: usize) -> u32 {
    u32::from_be_bytes([body[at], body[at + 1], body[at + 2], body[at + 3]])
}

impl<'a> Reader<'a> {
    fn refuse<T>(&self, number: u8) -> Answer<T> {
        Err(Refusal { number, place: self.at })
    }

    #[inline]
    fn require(&self, kept: bool, number: u8) -> Answer<()> {
        require(kept, number, self.at)
    }

    /// The next field's body where it is of the tag; none where another tag or the end comes.
    #[inline]
    fn body<const LENGTH: usize>(&self, tag: u8) -> Answer<Option<&'a [u8; LENGTH]>> {
        let rest = &self.file[self.at..];
        if rest.first() != Some(&tag) {
            return Ok(None);
        }
        self.require(rest.len() >= 3, 1)?;
        self.require(u16_at(rest, 1) as usize == LENGTH, 2)?;
        match rest[3..].first_chunk() {
            Some(body) => Ok(Some(body)),
            None => self.refuse(1),
        }
    }

    #[inline]
    fn take<const COLUMNS: usize>(&mut self, row: [u32; COLUMNS], length: usize) {
        let to = &mut self.numbers[self.count..self.count + COLUMNS];
        to.iter_mut().zip(row).for_each(|(to, number)| *to = number as usize);
        self.count += COLUMNS;
        self.at += 3 + length;
    }

    fn head(&mut self) -> Answer<[u32; 3]> {
        let Some(body) = self.body::<12>(1)? else {
            return self.refuse(if self.file.len() < 3 { 1 } else { 2 });
        };
        let [day, free_flow, compressor] = [0, 4, 8].map(|at| u32_at(body, at));
        self.require(free_flow <= MOST_GIGAJOULES && compressor <= MOST_GIGAJOULES, 3)?;
        self.at = 15;
        Ok([day, free_flow, compressor])
    }

    fn shippers(&mut self, names: &mut [u32; 64]) -> Answer<usize> {
        let (mut rows, mut last) = (0, 0);
        while let Some(body) = self.body::<22>(2)? {
            let name = u16_at(body, 0);
            let [firm_mdq, auction_mdq, firm, auction, lower_tier] = [2, 6, 10, 14, 18].map(|at| u32_at(body, at));
            let figures = [firm_mdq, auction_mdq, firm, auction, lower_tier];
            let bounded = figures.iter().fold(true, |kept, &figure| kept & (figure <= MOST_GIGAJOULES));
            self.require(rows < 64 && name > 0 && bounded, 3)?;
            self.require(name > last, 5)?;
            self.require((firm_mdq > 0 || firm == 0) && (auction_mdq > 0 || auction == 0), 4)?;
            names[rows] = name;
            self.take([name, firm_mdq, auction_mdq, firm, auction, lower_tier], 22);
            (rows, last) = (rows + 1, name);
        }
        Ok(rows)
    }

    fn points(&mut self, keys: &mut [u32; 32]) -> Answer<usize> {
        let (mut rows, mut last) = (0, 0);
        while let Some(body) = self.body::<7>(3)? {
            let (side, point, capacity) = (body[0] as u32, u16_at(body, 1), u32_at(body, 3));
            self.require(rows < 32 && side <= 1 && point > 0 && capacity <= MOST_MEGAJOULES, 3)?;
            let key = side << 16 | point;
            self.require(key > last, 5)?;
            keys[rows] = key;
            self.take([side, point, capacity], 7);
            (rows, last) = (rows + 1, key);
        }
        Ok(rows)
    }

    /// Keys rise, so points and, within a point, shippers are looked up from where the last entry was found.
    fn entries(&mut self, names: &[u32], keys: &[u32]) -> Answer<usize> {
        let (mut rows, mut last) = (0, 0);
        let (mut points, mut shippers) = (keys, names);
        while let Some(body) = self.body::<9>(4)? {
            let (side, point, shipper, entitlement) = (body[0] as u32, u16_at(body, 1), u16_at(body, 3), u32_at(body, 5));
            self.require(rows < 512 && side <= 1 && point > 0 && shipper > 0 && entitlement <= MOST_MEGAJOULES, 3)?;
            let key = (side << 16 | point) as u64;
            let whole = key << 16 | shipper as u64;
            self.require(whole > last, 5)?;
            if key != last >> 16 {
                points = past(points, key as u32);
                shippers = names;
                self.require(points.first() == Some(&(key as u32)), 5)?;
            }
            shippers = past(shippers, shipper);
            self.require(shippers.first() == Some(&shipper), 5)?;
            self.take([side, point, shipper, entitlement], 9);
            (rows, last) = (rows + 1, whole);
        }
        Ok(rows)
    }

    fn meters(&mut self, names: &[u32], metered: &mut [u32; 64]) -> Answer<usize> {
        let (mut rows, mut last) = (0, 0);
        let mut shippers = names;
        while let Some(body) = self.body::<270>(5)? {
            let name = u16_at(body, 0);
            let row: [u32; 68] = named(name, &body[2..]);
            self.require(rows < 64 && name > 0 && meter_is_bounded(&row), 3)?;
            self.require(name > last, 5)?;
            shippers = past(shippers, name);
            self.require(shippers.first() == Some(&name), 5)?;
            metered[rows] = name;
            self.take(row, 270);
            (rows, last) = (rows + 1, name);
        }
        Ok(rows)
    }

    /// A meter is looked up from where the last one was found; where a key does not rise from the first, since 3 comes before 5.
    fn excused(&mut self, metered: &[u32]) -> Answer<usize> {
        let first = self.count - 68 * metered.len();
        let (mut rows, mut last) = (0, 0);
        let mut meters = metered;
        while let Some(body) = self.body::<238>(9)? {
            let name = u16_at(body, 0);
            let row: [u32; 60] = named(name, &body[2..]);
            self.require(rows < 64 && name > 0, 3)?;
            meters = past(if name > last { meters } else { metered }, name);
            let found = meters.first() == Some(&name);
            let own = first + 68 * (metered.len() - meters.len());
            self.require(!found || is_no_more(&row[1..], &self.numbers[own + 3..own + 62]), 3)?;
            self.require(found && name > last, 5)?;
            self.take(row, 238);
            (rows, last) = (rows + 1, name);
        }
        Ok(rows)
    }
}

/// A row of a name and figures of four bytes.
#[inline]
fn named<const COLUMNS: usize>(name: u32, figures: &[u8]) -> [u32; COLUMNS] {
    let mut row = [name; COLUMNS];
    for (to, bytes) in row[1..].iter_mut().zip(figures.chunks_exact(4)) {
        *to = u32_at(bytes, 0);
    }
    row
}

/// No hour is excused more than was metered in it.
fn is_no_more(excused: &[u32], metered: &[usize]) -> bool {
    excused.iter().zip(metered).fold(true, |kept, (&quantity, &hour)| kept & (quantity as usize <= hour))
}

/// The rising names from the first that is not below.
#[inline]
fn past(names: &[u32], name: u32) -> &[u32] {
    let below = names.iter().take_while(|&&listed| listed < name).count();
    &names[below..]
}

fn within(figures: &[u32], most: u32) -> bool {
    figures.iter().fold(true, |kept, &figure| kept & (figure <= most))
}

fn meter_is_bounded(row: &[u32; 68]) -> bool {
    within(&row[1..3], MOST_GIGAJOULES)
        & within(&row[3..62], MOST_MEGAJOULES)
        & within(&row[62..66], MOST_GIGAJOULES)
        & within(&row[66..], MOST_BACKHAUL)
}

/// Reads a day's file into numbers of our own.
pub fn read_into(file: &[u8], numbers: &mut [usize; MOST_NUMBERS]) -> Answer<Day> {
    let (mut names, mut keys, mut metered) = ([0; 64], [0; 32], [0; 64]);
    let mut reader = Reader { file, at: 0, numbers, count: 0 };
    let [day, free_flow, compressor] = reader.head()?;
    let shippers = reader.shippers(&mut names)?;
    let points = reader.points(&mut keys)?;
    let entries = reader.entries(&names[..shippers], &keys[..points])?;
    let meters = reader.meters(&names[..shippers], &mut metered)?;
    let excused = reader.excused(&metered[..meters])?;
    let left = file.len() - reader.at;
    reader.require(left == 0, if left < 3 { 1 } else { 2 })?;
    Ok(Day { day, free_flow, compressor, shippers, points, entries, meters, excused })
}

/// Reads a day's file: its numbers go to the front of a lent block; a refusal leaves it as it was.
pub fn read_day(file: &[u8], lent: &mut [usize]) -> Answer<Day> {
    let mut numbers = [0; MOST_NUMBERS];
    let day = read_into(file, &mut numbers)?;
    let count = day.numbers();
    require(count <= lent.len(), 7, 0)?;
    lent[..count].copy_from_slice(&numbers[..count]);
    Ok(day)
}
