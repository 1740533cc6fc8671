//! Lists that begin with a sound image made by hand, by the simulator's makers, and calls with buffers of every length.

use crate::counts::Kind;
use crate::desk::{Desk, Series};
use crate::layout::*;
use crate::{level, limits};
use second_simulator::calls::Call;
use second_simulator::gen::{sound_state, Maker, Profile};
use second_simulator::image::encode;
use second_simulator::rng::Rng;

/// Some 400 calls in lists of 10 to 200, each from a sound image that no run need lead to.
pub fn sound(desk: &mut Desk, name: &str, seed: u64) {
    let mut rng = Rng::new(seed);
    let mut left = 400;
    while left > 0 {
        let calls = rng.pick(&[10, 20, 50, 200]).min(left);
        left -= calls;
        let profile = Profile::random(&mut rng);
        let image = encode(level(), &sound_state(level(), &mut rng));
        let mut maker = Maker { level: level(), rng: rng.clone(), profile };
        rng.next();
        let mut series = Series::new(desk, Kind::Sound, name, image);
        for _ in 0..calls {
            let mut lent = maker.next(&series.image);
            // An open of any N may stand in these lists.
            if maker.rng.one_in(300) { lent.call = Call::Open { stations: maker.rng.range(0, 10) as u32 }; }
            series.call(&lent.call, lent.reply);
        }
    }
}

/// Every call with images, order blocks, sheets and replies of right and wrong lengths: which question is asked first, and that nothing is touched.
pub fn lengths(desk: &mut Desk, name: &str, seed: u64) {
    let mut rng = Rng::new(seed);
    for _ in 0..70 {
        let aim = limits::aim(&mut rng);
        let mut image = encode(level(), &aim.state);
        let length = rng.pick(&[
            0, 1, 2, 4, 5, 8, SERVICES_AT - 1, SERVICES_AT, RECORDS_AT - 1, RECORDS_AT, IMAGE_SIZE - RECORD_SIZE, IMAGE_SIZE - SERVICE_SIZE, IMAGE_SIZE - 1,
            IMAGE_SIZE, IMAGE_SIZE, IMAGE_SIZE, IMAGE_SIZE + 1, IMAGE_SIZE + RECORD_SIZE, OTHER_IMAGE_SIZE, 4000,
        ]);
        image.resize(length, 0);
        if rng.one_in(4) { image = rng.bytes(length); }
        let mut series = Series::new(desk, Kind::Lengths, name, image);
        for _ in 0..5 {
            let mut order = aim.order(&mut rng);
            let mut by_format = if rng.one_in(2) { aim.odd_format_order(&mut rng) } else { aim.format_order(&mut rng) };
            if rng.one_in(2) {
                // Each also as long as the other should be.
                order.resize(rng.pick(&[
                    0, 1, 4, BLOCK_COSTS_AT, BLOCK_SIZE - 2, BLOCK_SIZE - 1, BLOCK_SIZE + 1, BLOCK_SIZE + 2, SHEET_SIZE, 2 * BLOCK_SIZE, 10 * BLOCK_SIZE, 1000,
                ]), 0);
                by_format.resize(rng.pick(&[
                    0, 1, SHEET_SPEEDS_AT, BLOCK_SIZE, SHEET_SIZE - 2, SHEET_SIZE - 1, SHEET_SIZE + 1, SHEET_SIZE + 2, 2 * SHEET_SIZE, 1000,
                ]));
            }
            let right = REPLY_SIZE;
            let reply_length = rng.pick(&[0, 1, 4, right - 1, right, right, right, right + 1, 2 * right, 4 * right]);
            let call = match rng.below(6) {
                0 => Call::Open { stations: rng.pick(&[0, 1, 2, 3, 4, 5, 6, 7, 8, 9, 255, 256, 257, 264, 65_537, 0x8000_0001, u32::MAX]) },
                1 => Call::Quote { order },
                2 => Call::Offer { order },
                3 => by_format.quote(),
                4 => by_format.offer(),
                _ => Call::Advance,
            };
            let reply = rng.bytes(reply_length);
            series.call(&call, reply);
        }
    }
}
