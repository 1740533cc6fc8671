//! Sound images near every limit, each with an order that is aimed at an edge of on time: the newcomer's, or that of a live order which it delays.

use crate::counts::Kind;
use crate::desk::{Desk, Series};
use crate::formats::FormatOrder;
use crate::layout::*;
use crate::level;
use second_simulator::bytes::{put16, put32};
use second_simulator::calls::Call;
use second_simulator::gen::block;
use second_simulator::image::{encode, Record, Service, State};
use second_simulator::rng::Rng;

/// An image, and an order that may be offered to it.
pub struct Aim {
    pub state: State,
    ranks: [u8; MAX_STATIONS],
    costs: [u16; MAX_STATIONS],
    /// the delay sum that the order would have
    sum: u64,
}

/// How the costs of a cabinet's orders look.
fn cost(rng: &mut Rng, style: u64) -> u16 {
    match style {
        0 => 1,
        1 => MAX_COST,
        2 | 3 => rng.range(1, 3) as u16,
        4 => rng.range(1, 40) as u16,
        5 => rng.range(1, MAX_COST.into()) as u16,
        6 => rng.pick(&[1, 2, MAX_COST - 1, MAX_COST]),
        _ => rng.pick(&[1, 1, 1, 300]),
    }
}

fn rank(rng: &mut Rng, style: u64) -> u8 {
    match style {
        0 => 7,
        1 => rng.below(2) as u8,
        2 => 254 + rng.below(2) as u8,
        3 => rng.pick(&[0, 1, 127, 128, 255]),
        _ => rng.next() as u8,
    }
}

/// A step from one ticket to another, at most so large.
fn gap(rng: &mut Rng, most: u32) -> u32 {
    let most = most.min(rng.pick(&[1, 3, u32::MAX]));
    rng.range(1, u64::from(most)) as u32
}

/// Tickets of so many live orders, rising, and the next ticket.
fn tickets(rng: &mut Rng, live: usize) -> (Vec<u32>, u32) {
    let count = live as u32;
    let next = match rng.below(6) {
        0 => 0,
        1 => u32::MAX,
        2 => u32::MAX - rng.below(3) as u32,
        3 => count + 1,
        4 => count + 1 + rng.below(40) as u32,
        _ => rng.range(u64::from(count) + 1, u64::from(u32::MAX)) as u32,
    };
    let last = next.wrapping_sub(1);
    let mut all: Vec<u32> = match rng.below(3) {
        // the last that were given, the first ones, or a way between them
        0 => (0..count).map(|k| last - k).collect(),
        1 => (1..=count).collect(),
        _ => {
            let mut at = last;
            let mut all = Vec::new();
            for still in (0..count).rev() {
                all.push(at);
                if still > 0 { at -= gap(rng, at - still); }
            }
            all
        }
    };
    all.sort_unstable();
    (all, next)
}

/// An image of any cabinet.
pub fn aim(rng: &mut Rng) -> Aim {
    let n = rng.pick(&[1, 1, 2, 3, 4, 5, 6, 7, 8, 8]);
    let live = match rng.below(8) { 0 => 0, 1 => 1, 2 => 2, 3 => MAX_LIVE - 2, 4 => MAX_LIVE - 1, 5 => MAX_LIVE, _ => rng.range(0, MAX_LIVE as u64) as usize };
    aim_at(rng, n, live)
}

/// An image of so many stations and live orders.
pub fn aim_at(rng: &mut Rng, n: usize, live: usize) -> Aim {
    let clock = match rng.below(12) {
        0 => 0,
        1 => rng.below(3) as u32,
        2 => LAST_TICK,
        3 => LAST_TICK - 1,
        4 => LAST_TICK - rng.below(20) as u32,
        5 => LAST_TICK - MAX_DUE_IN + rng.below(3) as u32 - 1,
        6 => LAST_TICK - DEFAULT_DUE_IN + rng.below(3) as u32 - 1,
        7 => LAST_TICK - rng.below(70_000) as u32,
        8 => rng.pick(&[65_535, 65_536, 0x7fff_ffff, 0x8000_0000, 0x8000_0000 - MAX_DUE_IN]),
        _ => rng.range(0, u64::from(LAST_TICK)) as u32,
    };
    let (tickets, next_ticket) = tickets(rng, live);

    let style = rng.below(8);
    let own_style = if rng.one_in(3) { rng.below(8) } else { style };
    let ranks_style = rng.below(5);
    let mut ranks = [0; MAX_STATIONS];
    let mut costs = [0; MAX_STATIONS];
    for j in 0..n {
        ranks[j] = rank(rng, ranks_style);
        costs[j] = cost(rng, own_style);
    }
    let largest = u64::from(*costs.iter().max().unwrap());

    // How near the live orders are to being late by the newcomer: one of them exactly on time or late by one, all of them near, or none.
    let mode = rng.below(5);
    let chosen = rng.below(live.max(1) as u64) as usize;
    let most = u64::from(MAX_DUE_IN);
    let mut records = Vec::new();
    for (k, ticket) in tickets.into_iter().enumerate() {
        let mut r = Record { ticket, station: rng.range(1, n as u64) as u8, ..Record::default() };
        if rng.one_in(3) { r.station = rng.pick(&[1, n as u8]); }
        for j in 0..n {
            r.ranks[j] = rank(rng, ranks_style);
            r.costs[j] = cost(rng, style);
            let least = r.costs[j];
            r.company_max[j] = match rng.below(6) {
                0 | 1 => least,
                2 => (least + 1).min(MAX_COST),
                3 => least.max(costs[j]),
                4 => least.max(costs[j].saturating_sub(1)),
                _ => rng.range(u64::from(least), MAX_COST.into()) as u16,
            };
        }
        r.company_sum = r.largest_cost();
        // What the newcomer would add to its sum, and the room that it is given for that.
        let added = |r: &Record| largest + (0..n - 1).map(|j| u64::from(costs[j].saturating_sub(r.company_max[j]))).sum::<u64>();
        if r.delay(n) + added(&r) > most { r.company_max = r.costs; }
        let added = added(&r);
        let room = match mode {
            0 | 1 if k == chosen => added - u64::from(mode == 1),
            0 | 1 => added + rng.pick(&[0, 1, 5, 500]),
            2 => rng.pick(&[0, 1, added - 1, added, added + 1, added + 40]),
            _ => most,
        };
        let free = most - r.delay(n);
        if mode < 3 || rng.one_in(3) {
            // Others that are out stand in its company.
            let more = free.saturating_sub(room);
            r.company_sum += match rng.below(4) { 0 => 0, 1 => more, 2 => more.min(rng.below(9)), _ => rng.range(0, more) } as u32;
        }
        let due_in = (r.delay(n) + room).clamp(1, most);
        let latest = u64::from(clock).min(u64::from(LAST_TICK) - due_in);
        r.accepted = match rng.below(5) {
            0 | 1 => latest,
            2 => latest.saturating_sub(rng.below(5)),
            3 => latest.saturating_sub(rng.below(most)),
            _ => rng.range(0, latest),
        } as u32;
        r.due = r.accepted + due_in as u32;
        records.push(r);
    }

    let mut state = State { n, clock, next_ticket, stations: [Service::default(); MAX_STATIONS], live: records };
    for j in 0..n {
        let here: Vec<&Record> = state.live.iter().filter(|r| usize::from(r.station) == j + 1).collect();
        if here.is_empty() || rng.one_in(3) { continue; }
        let r = here[rng.below(here.len() as u64) as usize];
        let to_go = match rng.below(4) { 0 | 1 => 1, 2 => r.costs[j], _ => rng.range(1, u64::from(r.costs[j])) as u16 };
        state.stations[j] = Service { ticket: r.ticket, to_go };
    }
    let sum = largest
        + state.live.iter().map(|r| u64::from(r.largest_cost())).sum::<u64>()
        + (0..n - 1).map(|j| u64::from(state.live.iter().map(|r| r.costs[j]).chain([costs[j]]).max().unwrap())).sum::<u64>();
    Aim { state, ranks, costs, sum }
}

impl Aim {
    fn block(&self, costs: &[u16], due_in: u64) -> Vec<u8> {
        let n = self.state.n;
        block(level(), due_in as u32, &self.ranks[..n], &costs[..n], 0)
    }

    /// The same by its format, with the rank of station 1 for all.
    fn by_format(&self, rng: &mut Rng, costs: &[u16], due_in: u64) -> FormatOrder {
        FormatOrder::of_costs(rng, &costs[..self.state.n], self.ranks[0], due_in as u32)
    }

    /// A due-in at an edge.
    fn due_in(&self, rng: &mut Rng) -> u64 {
        let (end, most) = (u64::from(LAST_TICK - self.state.clock), u64::from(MAX_DUE_IN));
        let due_in = match rng.below(12) {
            0 => self.sum - 1,
            1 => self.sum,
            2 => self.sum + 1,
            3 => 0,
            4 => end,
            5 => end + 1,
            6 => rng.pick(&[1, u64::from(DEFAULT_DUE_IN) - 1, DEFAULT_DUE_IN.into(), most - 1, most + 1, 65_536]),
            _ => most,
        };
        if due_in > most + 1 && !rng.one_in(20) { most } else { due_in }
    }

    /// Costs by which the delay sum is the default due-in, or a tick beside it, if there are such: a largest cost at station N, and what is then wanting before it.
    fn beside_default(&self, rng: &mut Rng) -> Option<[u16; MAX_STATIONS]> {
        let (n, live) = (self.state.n, &self.state.live);
        let there: Vec<u64> = (0..n - 1).map(|j| live.iter().map(|r| u64::from(r.costs[j])).max().unwrap_or(0).max(1)).collect();
        let company = live.iter().map(|r| u64::from(r.largest_cost())).sum::<u64>() + there.iter().sum::<u64>();
        let mut wanting = (u64::from(DEFAULT_DUE_IN) + rng.below(3)).checked_sub(1 + company)?;
        let highest = wanting.min(MAX_COST.into());
        if highest == 0 { return None; }
        let largest = if n == 1 || rng.one_in(2) { highest } else { rng.range(1, highest) };
        wanting -= largest;
        let mut costs = [0; MAX_STATIONS];
        costs[n - 1] = largest as u16;
        for j in 0..n - 1 {
            let more = wanting.min(largest.saturating_sub(there[j]));
            costs[j] = if more > 0 { there[j] + more } else { there[j].min(largest) } as u16;
            wanting -= more;
        }
        if wanting == 0 { Some(costs) } else { None }
    }

    /// Costs and a due-in at an edge: one in six with no due-in, and a delay sum beside the default.
    fn at_an_edge(&self, rng: &mut Rng) -> ([u16; MAX_STATIONS], u64) {
        let beside = if rng.one_in(6) { self.beside_default(rng) } else { None };
        beside.map_or_else(|| (self.costs, self.due_in(rng)), |costs| (costs, 0))
    }

    /// The order, at an edge.
    pub fn order(&self, rng: &mut Rng) -> Vec<u8> {
        let (costs, due_in) = self.at_an_edge(rng);
        self.block(&costs, due_in)
    }

    /// The same by its format.
    pub fn format_order(&self, rng: &mut Rng) -> FormatOrder {
        let (costs, due_in) = self.at_an_edge(rng);
        self.by_format(rng, &costs, due_in)
    }

    /// The order by its format, with one or two things at a limit or beyond it.
    pub fn odd_format_order(&self, rng: &mut Rng) -> FormatOrder {
        let mut order = self.by_format(rng, &self.costs, MAX_DUE_IN.into());
        for _ in 0..rng.range(1, 2) { order.push(rng, self.state.n); }
        order
    }

    /// The order with one thing at a limit or beyond it.
    pub fn odd_order(&self, rng: &mut Rng) -> Vec<u8> {
        let mut b = self.block(&self.costs, MAX_DUE_IN.into());
        let n = self.state.n;
        let j = rng.below(n as u64) as usize;
        let (rank, cost) = (|j| BLOCK_RANKS_AT + j, |j| BLOCK_COSTS_AT + 2 * j);
        let beyond = |rng: &mut Rng| rng.range(n as u64, MAX_STATIONS as u64 - 1) as usize;
        match rng.below(8) {
            0 => put16(&mut b, cost(j), 0),
            1 => put16(&mut b, cost(j), rng.pick(&[1, MAX_COST - 1, MAX_COST])),
            2 => put16(&mut b, cost(j), rng.pick(&[MAX_COST + 1, 0x8000, 0xffff, MAX_COST + 256])),
            3 if n < MAX_STATIONS => b[rank(beyond(rng))] = rng.pick(&[1, 128, 255]),
            4 if n < MAX_STATIONS => put16(&mut b, cost(beyond(rng)), rng.pick(&[1, 256, MAX_COST, 0x8000])),
            5 => put32(&mut b, BLOCK_DUE_IN_AT, rng.pick(&[MAX_DUE_IN + 1, MAX_DUE_IN, 65_536, 0x8000_0000, u32::MAX, 0x1_0000 + MAX_DUE_IN])),
            6 => b[rank(j)] = rng.pick(&[0, 1, 254, 255]),
            _ => b = rng.bytes(BLOCK_SIZE),
        }
        b
    }
}

/// Some 400 calls on 20 such images.
pub fn unit(desk: &mut Desk, name: &str, seed: u64) {
    let mut rng = Rng::new(seed);
    for _ in 0..20 {
        let aim = aim(&mut rng);
        let image = encode(level(), &aim.state);
        let mut series = Series::new(desk, Kind::Limits, name, image);
        for k in 0..20 {
            // At first the aimed order, while the image is the one that it was aimed at. One in four comes by its format.
            let which = if k < 4 { rng.below(6) } else { rng.below(16) };
            let call = match (which, rng.one_in(4)) {
                (0 | 1, false) => Call::Quote { order: aim.order(&mut rng) },
                (2 | 3, false) => Call::Offer { order: aim.order(&mut rng) },
                (4, false) => Call::Quote { order: aim.odd_order(&mut rng) },
                (5, false) => Call::Offer { order: aim.odd_order(&mut rng) },
                (0 | 1, true) => aim.format_order(&mut rng).quote(),
                (2 | 3, true) => aim.format_order(&mut rng).offer(),
                (4, true) => aim.odd_format_order(&mut rng).quote(),
                (5, true) => aim.odd_format_order(&mut rng).offer(),
                _ => Call::Advance,
            };
            let length = if rng.one_in(40) { rng.pick(&[0, REPLY_SIZE - 1, REPLY_SIZE + 1]) } else { REPLY_SIZE };
            let reply = rng.bytes(length);
            series.call(&call, reply);
        }
    }
}
