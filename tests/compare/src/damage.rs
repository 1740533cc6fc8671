//! Damaged images: one field at a limit or just beyond it, one bit flipped, or two of these; and the simulator's own list of damages, clause by clause.

use crate::counts::Kind;
use crate::desk::{Desk, Series};
use crate::formats::FormatOrder;
use crate::layout::*;
use crate::{level, limits};
use second_simulator::bytes::{get16, get32, put16, put32};
use second_simulator::calls::Call;
use second_simulator::gen::{block, damages};
use second_simulator::image::{encode, State};
use second_simulator::rng::Rng;

/// Where the fields of the image begin and how many bytes they have: the header's, a station's entry, a record.
const HEADER: [(usize, usize); 5] = [(STATION_COUNT_AT, 1), (LIVE_COUNT_AT, 1), (HEADER_ZERO_AT, 1), (CLOCK_AT, 4), (NEXT_AT, 4)];
const ENTRY: [(usize, usize); 3] = [(SERVED_AT, 4), (LEFT_AT, 2), (SERVICE_ZERO_AT, 2)];
const RECORD: [(usize, usize); 7] =
    [(TICKET_AT, 4), (ACCEPTED_AT, 4), (DUE_AT, 4), (SUM_AT, 4), (STATION_AT, 1), (STATION_ZERO_AT, 1), (STATION_ZERO_AT + 1, 2)];

/// A field of some image, the live records' more often than the others'.
fn field(rng: &mut Rng, live: usize) -> (usize, usize) {
    let some = |rng: &mut Rng| {
        // The first and the last live one, the first that is not in use, and any.
        let k = match rng.below(4) { 0 => 0, 1 => live.saturating_sub(1), 2 => live, _ => rng.below(MAX_LIVE as u64) as usize };
        record(k.min(MAX_LIVE - 1))
    };
    let j = rng.below(MAX_STATIONS as u64) as usize;
    match rng.below(10) {
        0 | 1 => rng.pick(&HEADER),
        2 | 3 => { let (at, size) = rng.pick(&ENTRY); (service(j) + at, size) }
        4 => (some(rng) + RANKS_AT + j, 1),
        5 => (some(rng) + COSTS_AT + 2 * j, 2),
        6 => (some(rng) + MAXIMA_AT + 2 * j, 2),
        7 => (some(rng) + RECORD_ZERO_AT, 4),
        _ => { let (at, size) = rng.pick(&RECORD); (some(rng) + at, size) }
    }
}

/// The largest N and the largest live count, as bytes.
const STATIONS: u8 = MAX_STATIONS as u8;
const LIVE: u8 = MAX_LIVE as u8;

/// Puts a value near a limit, or near the one that is there, into a field.
fn push(rng: &mut Rng, image: &mut [u8], (at, size): (usize, usize)) {
    match size {
        1 => {
            let v = image[at];
            image[at] = rng.pick(&[0, 1, STATIONS, STATIONS + 1, LIVE - 1, LIVE, LIVE + 1, 255, v.wrapping_add(1), v.wrapping_sub(1), v ^ 0x80]);
        }
        2 => {
            let v = get16(image, at);
            put16(image, at, rng.pick(&[0, 1, MAX_COST, MAX_COST + 1, 0x8000, 0xffff, v.wrapping_add(1), v.wrapping_sub(1), v ^ 0x100]));
        }
        _ => {
            let v = get32(image, at);
            let other = get32(image, record(rng.below(MAX_LIVE as u64) as usize) + TICKET_AT);
            let clock = get32(image, CLOCK_AT);
            put32(image, at, rng.pick(&[
                0, 1, u32::MAX, LAST_TICK, LAST_TICK + 1, v.wrapping_add(1), v.wrapping_sub(1), v ^ 0x8000_0000, v.wrapping_add(MAX_DUE_IN + 1), other,
                other.wrapping_add(1), clock, clock.wrapping_add(1), v.wrapping_add(0x1_0000),
            ]));
        }
    }
}

/// The due tick of a record moved to where one clause turns: late by one, just on time, the largest due-in and one more after acceptance; or the acceptance with it.
fn move_due(rng: &mut Rng, state: &State, image: &mut [u8]) {
    if state.live.is_empty() { return; }
    let last = state.live.len() - 1;
    let k = match rng.below(3) { 0 => 0, 1 => last, _ => rng.range(0, last as u64) as usize };
    let r = &state.live[k];
    let (accepted_at, due_at, sum_at) = (record(k) + ACCEPTED_AT, record(k) + DUE_AT, record(k) + SUM_AT);
    let delay = r.delay(state.n) as u32;
    match rng.below(7) {
        0 => put32(image, due_at, r.accepted + delay - 1),
        1 => put32(image, due_at, r.accepted + delay),
        2 => put32(image, due_at, r.accepted + MAX_DUE_IN),
        3 => put32(image, due_at, r.accepted + MAX_DUE_IN + 1),
        // the sum one above what is on time, and exactly so
        4 => put32(image, sum_at, r.company_sum + (r.due - r.accepted - delay) + 1),
        5 => put32(image, sum_at, r.company_sum + (r.due - r.accepted - delay)),
        _ => {
            let due_in = r.due - r.accepted;
            let accepted = rng.pick(&[state.clock, state.clock + 1, LAST_TICK - due_in, LAST_TICK - due_in + 1]);
            put32(image, accepted_at, accepted);
            put32(image, due_at, accepted + due_in);
        }
    }
}

fn hurt(rng: &mut Rng, state: &State, image: &mut [u8]) {
    match rng.below(8) {
        0 => image[rng.below(IMAGE_SIZE as u64) as usize] ^= 1 << rng.below(8),
        1 => image[rng.below(STATION_COUNT_AT as u64) as usize] ^= 1 << rng.below(8),
        2 => move_due(rng, state, image),
        _ => { let f = field(rng, state.live.len()); push(rng, image, f) }
    }
}

/// Quote, advance and offer on an image, or in one of three quote_format, advance and offer_format. The order fits in three images of four; in the others a later
/// question has a "no" as well. Some replies do not fit.
fn probe(desk: &mut Desk, name: &str, image: Vec<u8>, rng: &mut Rng) {
    let n = usize::from(image[STATION_COUNT_AT]).clamp(1, MAX_STATIONS);
    let (quote, offer) = if rng.one_in(3) {
        let mut order = FormatOrder::of_costs(rng, &vec![1; n], 1, MAX_DUE_IN);
        match rng.below(12) {
            0 => {
                if rng.one_in(2) { order.push(rng, n); }
                order.resize(rng.pick(&[0, SHEET_SIZE - 1, SHEET_SIZE + 1, BLOCK_SIZE]));
            }
            1 | 2 => order.push(rng, n),
            _ => {}
        }
        (order.quote(), order.offer())
    } else {
        let mut order = block(level(), MAX_DUE_IN, &vec![1; n], &vec![1; n], 0);
        match rng.below(12) {
            0 => order.resize(rng.pick(&[0, BLOCK_SIZE - 1, BLOCK_SIZE + 1, 2 * BLOCK_SIZE]), 0),
            1 => put16(&mut order, BLOCK_COSTS_AT, MAX_COST + 1),
            2 => put32(&mut order, BLOCK_DUE_IN_AT, MAX_DUE_IN + 1),
            _ => {}
        }
        (Call::Quote { order: order.clone() }, Call::Offer { order })
    };
    let mut series = Series::new(desk, Kind::Damage, name, image);
    for call in [quote, Call::Advance, offer] {
        let length = if rng.one_in(30) { rng.pick(&[0, REPLY_SIZE - 1, REPLY_SIZE + 1]) } else { REPLY_SIZE };
        let reply = rng.bytes(length);
        series.call(&call, reply);
    }
}

/// Some 400 calls: 130 images with damages of this file, or the simulator's of one image. `place` counts these units, so that every byte of an image has its turn.
pub fn unit(desk: &mut Desk, name: &str, seed: u64, place: u64) {
    let mut rng = Rng::new(seed);
    if rng.one_in(3) {
        for damaged in damages(level(), &mut rng) { probe(desk, name, damaged.image, &mut rng); }
        return;
    }
    let mut byte = (place.wrapping_mul(40) % IMAGE_SIZE as u64) as usize;
    for _ in 0..10 {
        // Any cabinet, or the largest, in which the last field of all can be hurt.
        let aim = if rng.one_in(2) { limits::aim(&mut rng) } else { limits::aim_at(&mut rng, MAX_STATIONS, MAX_LIVE) };
        let good = encode(level(), &aim.state);
        for k in 0..13 {
            let mut image = good.clone();
            if k < 4 {
                image[byte] ^= 1 << rng.below(8);
                byte = (byte + 1) % IMAGE_SIZE;
            } else {
                hurt(&mut rng, &aim.state, &mut image);
                if rng.one_in(6) { hurt(&mut rng, &aim.state, &mut image); }
            }
            desk.counts.hurt(&good, &image);
            probe(desk, name, image, &mut rng);
        }
    }
}
