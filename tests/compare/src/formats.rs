//! Orders by paper format: sheets that lead to given costs, and orders with something at a limit or beyond it.

use crate::layout::*;
use second_simulator::bytes::{get16, get32, put16};
use second_simulator::calls::Call;
use second_simulator::ops::LONG_SIDES;
use second_simulator::rng::Rng;

/// Where a sheet has the figures of a station, counted from 0.
pub const fn fixed_at(j: usize) -> usize { SHEET_FIXED_AT + 2 * j }
pub const fn speed_at(j: usize) -> usize { SHEET_SPEEDS_AT + 2 * j }

/// The cost at a station, if there is such a format and the speed is not 0. It may be more than two bytes hold.
pub fn cost(format: u32, sheet: &[u8], j: usize) -> Option<u32> {
    let side = LONG_SIDES.get(format.checked_sub(1)? as usize)?;
    let speed = u32::from(get16(sheet, speed_at(j)));
    (speed != 0).then(|| u32::from(get16(sheet, fixed_at(j))) + side.div_ceil(speed))
}

pub struct FormatOrder {
    format: u32,
    due_in: u32,
    rank: u8,
    sheet: Vec<u8>,
}

impl FormatOrder {
    /// Any format, with a sheet by which it has these costs. What the sheet has beyond them is nobody's.
    pub fn of_costs(rng: &mut Rng, costs: &[u16], rank: u8, due_in: u32) -> FormatOrder {
        let format = rng.range(1, MAX_FORMAT.into()) as u32;
        let side = LONG_SIDES[format as usize - 1] as u16;
        let mut sheet = vec![0; SHEET_SIZE];
        for j in 0..MAX_STATIONS {
            let (fixed, speed) = match costs.get(j) {
                Some(cost) => {
                    // The smallest speed with which it is no more than the cost, those at which a part more or less begins, and any above.
                    let least = side.div_ceil(*cost);
                    let any = rng.range(1, 1_100) as u16;
                    let speed = rng.pick(&[least, least + 1, side - 1, side, side + 1, side / 2, any, u16::MAX]).max(least);
                    (cost - side.div_ceil(speed), speed)
                }
                None => (rng.pick(&[0, 1, MAX_COST + 1, u16::MAX]), rng.pick(&[0, 0, 1, 297, u16::MAX])),
            };
            put16(&mut sheet, fixed_at(j), fixed);
            put16(&mut sheet, speed_at(j), speed);
        }
        FormatOrder { format, due_in, rank, sheet }
    }

    /// The order of this block with the rank of station 1 for all, in a cabinet of so many stations, if it has a good length and good costs.
    pub fn of_block(rng: &mut Rng, block: &[u8], n: usize) -> Option<FormatOrder> {
        if block.len() != BLOCK_SIZE { return None; }
        let costs: Vec<u16> = (0..n).map(|j| get16(block, BLOCK_COSTS_AT + 2 * j)).collect();
        let good = costs.iter().all(|cost| (1..=MAX_COST).contains(cost));
        good.then(|| FormatOrder::of_costs(rng, &costs, block[BLOCK_RANKS_AT], get32(block, BLOCK_DUE_IN_AT)))
    }

    /// Puts one thing at a limit or beyond it, in a cabinet of so many stations.
    pub fn push(&mut self, rng: &mut Rng, n: usize) {
        let j = match rng.below(3) { 0 => 0, 1 => n - 1, _ => rng.below(n as u64) as usize };
        // What the paper takes at the station, if it can be told.
        let paper = cost(self.format, &self.sheet, j).map_or(1, |cost| (cost - u32::from(get16(&self.sheet, fixed_at(j)))) as u16);
        match rng.below(11) {
            0 | 1 => self.format = rng.pick(&[0, MAX_FORMAT + 1, MAX_FORMAT + 2, 255, 256, 257, 256 + MAX_FORMAT, 65_537, 0x8000_0001, u32::MAX]),
            2 | 3 => put16(&mut self.sheet, speed_at(j), 0),
            // costs of 6,000 and 6,001 exactly
            4 => put16(&mut self.sheet, fixed_at(j), MAX_COST - paper),
            5 => put16(&mut self.sheet, fixed_at(j), MAX_COST - paper + 1),
            // costs of 65,535 and 65,536 exactly, and larger ones that two bytes would make small ones of
            6 => put16(&mut self.sheet, fixed_at(j), rng.pick(&[u16::MAX - paper, u16::MAX - paper + 1, u16::MAX, 0x8000])),
            7 => {
                put16(&mut self.sheet, speed_at(j), rng.pick(&[1, 2, 100, u16::MAX]));
                put16(&mut self.sheet, fixed_at(j), rng.pick(&[0, u16::MAX, u16::MAX - 99]));
            }
            8 => self.due_in = rng.pick(&[0, MAX_DUE_IN, MAX_DUE_IN + 1, 65_536, 0x8000_0000, u32::MAX]),
            9 => self.rank = rng.pick(&[0, 1, 254, 255]),
            _ => self.sheet = rng.bytes(SHEET_SIZE),
        }
    }

    /// A sheet of another length.
    pub fn resize(&mut self, length: usize) { self.sheet.resize(length, 0); }

    pub fn quote(&self) -> Call { Call::QuoteFormat { format: self.format, due_in: self.due_in, rank: self.rank, sheet: self.sheet.clone() } }
    pub fn offer(&self) -> Call { Call::OfferFormat { format: self.format, due_in: self.due_in, rank: self.rank, sheet: self.sheet.clone() } }
}
