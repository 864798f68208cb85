//! From a day file's bytes to the listing of its shares.

use crate::dayfile::{read_into, MOST_NUMBERS};
use crate::dayshares::{share_day, Table};
use crate::{require, Answer, MOST_ROWS};

/// A head line and 64 lines of four figures are at most so long.
const MOST_TEXT: usize = 2_048;

struct Text {
    bytes: [u8; MOST_TEXT],
    size: usize,
}

impl Text {
    fn word(&mut self, word: &[u8]) {
        self.bytes[self.size..self.size + word.len()].copy_from_slice(word);
        self.size += word.len();
    }

    fn figure(&mut self, mut figure: u32, end: u8) {
        let mut digits = [end; 11];
        let mut first = 10;
        loop {
            first -= 1;
            digits[first] = b'0' + (figure % 10) as u8;
            figure /= 10;
            if figure == 0 {
                break;
            }
        }
        self.word(&digits[first..]);
    }
}

/// A column of the shipper table.
fn column(numbers: &[usize], place: usize) -> [u32; MOST_ROWS] {
    let mut column = [0; MOST_ROWS];
    for (to, row) in column.iter_mut().zip(numbers.chunks_exact(6)) {
        *to = row[place] as u32;
    }
    column
}

/// Lists a day file's shares: the text goes to the front of a lent block, and its length is handed back.
pub fn list_shares(file: &[u8], lent: &mut [u8]) -> Answer<usize> {
    let mut numbers = [0; MOST_NUMBERS];
    let day = read_into(file, &mut numbers)?;
    let rows = day.shippers;
    let shippers = &numbers[..6 * rows];
    let [firm_mdq, auction_mdq, firm_schedule, auction_schedule, lower_tier_schedule] =
        [1, 2, 3, 4, 5].map(|place| column(shippers, place));
    let table = Table {
        free_flow: day.free_flow,
        compressor: day.compressor,
        firm_mdq: &firm_mdq[..rows],
        auction_mdq: &auction_mdq[..rows],
        firm_schedule: &firm_schedule[..rows],
        auction_schedule: &auction_schedule[..rows],
        lower_tier_schedule: &lower_tier_schedule[..rows],
    };
    let [mut firm, mut auction, mut lower_tier] = [[0; MOST_ROWS]; 3];
    let shares = share_day(&table, &mut firm, &mut auction, &mut lower_tier)?;

    let mut text = Text { bytes: [0; MOST_TEXT], size: 0 };
    text.word(b"DAY ");
    text.figure(day.day, b' ');
    text.word(b"FIRM ");
    text.figure(shares.firm, b' ');
    text.word(b"LEFT ");
    text.figure(shares.left, b'\n');
    for (row, figures) in shippers.chunks_exact(6).enumerate() {
        text.figure(figures[0] as u32, b' ');
        text.figure(firm[row], b' ');
        text.figure(auction[row], b' ');
        text.figure(lower_tier[row], b'\n');
    }
    require(text.size <= lent.len(), 7, 0)?;
    lent[..text.size].copy_from_slice(&text.bytes[..text.size]);
    Ok(text.size)
}
