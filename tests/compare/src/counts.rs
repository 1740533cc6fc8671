//! What a comparison has seen, so that one that shows too little can be told.

use crate::formats::{self, fixed_at, speed_at};
use crate::layout::*;
use second_simulator::bytes::{get16, get32};
use second_simulator::calls::Call;
use second_simulator::image::{flaws, mark_and_version, Clause};
use second_simulator::list;
use second_simulator::ops::LONG_SIDES;
use std::collections::BTreeMap;

pub const CALLS: [&str; 6] = ["open", "quote", "offer", "quote_format", "offer_format", "advance"];
/// The kinds of lists, by who makes them, and their names.
#[derive(Clone, Copy)]
pub enum Kind { Book, LongBook, Sound, Limits, Damage, Lengths }
const KINDS: [&str; 6] = ["book", "long-book", "sound", "limits", "damage", "lengths"];

impl Kind {
    pub fn name(self) -> &'static str { KINDS[self as usize] }
}

/// Numbers 0 to 20.
const NUMBERS: usize = 21;

/// Clauses of soundness, in the simulator's words.
pub const CLAUSES: [(Clause, &str); 20] = [
    (Clause::StationCount, "StationCount"), (Clause::LiveCount, "LiveCount"), (Clause::Clock, "Clock"), (Clause::ZeroBytes, "ZeroBytes"),
    (Clause::UnusedRecords, "UnusedRecords"), (Clause::TicketLeast, "TicketLeast"), (Clause::TicketsRising, "TicketsRising"),
    (Clause::TicketBelowNext, "TicketBelowNext"), (Clause::Acceptance, "Acceptance"), (Clause::DueLeast, "DueLeast"), (Clause::DueMost, "DueMost"),
    (Clause::DueEnd, "DueEnd"), (Clause::Station, "Station"), (Clause::Cost, "Cost"), (Clause::MaximumLeast, "MaximumLeast"),
    (Clause::MaximumMost, "MaximumMost"), (Clause::SumLeast, "SumLeast"), (Clause::OnTime, "OnTime"), (Clause::BeyondN, "BeyondN"),
    (Clause::InService, "InService"),
];

/// Calls by live orders.
#[derive(Clone, Copy)]
pub struct Live([u64; MAX_LIVE + 1]);

impl Default for Live {
    fn default() -> Live { Live([0; MAX_LIVE + 1]) }
}

#[derive(Clone, Default)]
pub struct Counts {
    /// calls by call and number
    pub numbers: [[u64; NUMBERS]; CALLS.len()],
    /// calls that got as far as question 5, by call and live orders
    pub live: [Live; CALLS.len()],
    /// calls of a format order that are done, by call and format
    pub formats: [[u64; MAX_FORMAT as usize]; CALLS.len()],
    /// those that the run book reads and that are accepted
    pub book_formats: u64,
    /// starts, by N and station
    pub starts: [[u64; MAX_STATIONS]; MAX_STATIONS],
    /// those in which an order goes before a smaller ticket of its rank, since it is due earlier: by N and station, and by live orders
    pub due_starts: [[u64; MAX_STATIONS]; MAX_STATIONS],
    pub due_live: Live,
    /// those in lists that the run book reads
    pub book_due_starts: u64,
    /// orders out, by N
    pub out: [u64; MAX_STATIONS],
    /// lists and their calls, by kind
    pub lists: [u64; KINDS.len()],
    pub calls: [u64; KINDS.len()],
    /// images that lists began with: sound; of another length; of another mark or version; not sound
    pub images: [u64; 4],
    /// images that break one clause alone
    pub alone: [u64; CLAUSES.len()],
    /// by byte of the image: images that differ from a sound one in this byte
    pub bytes: Vec<u64>,
    /// calls that were declined for a wrong length, by the buffer and its length
    pub lengths: BTreeMap<(&'static str, usize), u64>,
    /// what stands at an edge, by name
    pub edges: BTreeMap<&'static str, u64>,
    /// plan tables by what is printed
    pub tables: BTreeMap<&'static str, u64>,
    pub book: list::Counts,
}

fn place(call: &Call) -> usize {
    match call {
        Call::Open { .. } => 0,
        Call::Quote { .. } => 1,
        Call::Offer { .. } => 2,
        Call::QuoteFormat { .. } => 3,
        Call::OfferFormat { .. } => 4,
        _ => 5,
    }
}

impl Counts {
    pub fn total(&self) -> u64 { self.calls.iter().sum() }

    pub fn edge(&mut self, name: &'static str) { *self.edges.entry(name).or_default() += 1; }

    /// An image that a list begins with.
    pub fn image(&mut self, image: &[u8]) {
        let kind = if image.len() != IMAGE_SIZE { 1 } else if !mark_and_version(crate::level(), image) { 2 } else {
            let broken = flaws(crate::level(), image);
            if let [clause] = broken[..] { self.alone[CLAUSES.iter().position(|(c, _)| *c == clause).unwrap()] += 1; }
            if broken.is_empty() { 0 } else { 3 }
        };
        self.images[kind] += 1;
    }

    /// A damaged image and the sound one that it was.
    pub fn hurt(&mut self, sound: &[u8], damaged: &[u8]) {
        self.bytes.resize(IMAGE_SIZE, 0);
        for (count, (a, b)) in self.bytes.iter_mut().zip(sound.iter().zip(damaged)) { *count += u64::from(a != b); }
    }

    /// How often the byte was damaged that was so least often.
    fn least_hurt(&self) -> u64 { self.bytes.iter().copied().min().unwrap_or(0) }

    /// A call that library and simulator agree on: the image before it, its number and its reply.
    pub fn call(&mut self, kind: Kind, call: &Call, before: &[u8], number: u32, reply: &[u8]) {
        let c = place(call);
        self.numbers[c][number as usize] += 1;
        self.calls[kind as usize] += 1;
        let wrong = match (number, call) {
            (1, _) => Some(("reply", reply.len())),
            (2, _) => Some(("image", before.len())),
            (5, Call::Quote { order } | Call::Offer { order }) => Some(("order", order.len())),
            (5, Call::QuoteFormat { sheet, .. } | Call::OfferFormat { sheet, .. }) => Some(("sheet", sheet.len())),
            _ => None,
        };
        if let Some(wrong) = wrong { *self.lengths.entry(wrong).or_default() += 1; }
        if c == 0 || (1..=4).contains(&number) { return; }
        self.live[c].0[usize::from(before[LIVE_COUNT_AT])] += 1;
        match call {
            Call::Quote { order } | Call::Offer { order } => self.order(order, c == 2, before, number, reply),
            Call::QuoteFormat { format, due_in, rank, sheet } | Call::OfferFormat { format, due_in, rank, sheet } => {
                if number == 0 { self.formats[c][*format as usize - 1] += 1; }
                self.book_formats += u64::from(number == 0 && c == 4 && matches!(kind, Kind::Book | Kind::LongBook));
                self.format_order((*format, *due_in, *rank, sheet), before, number, reply);
            }
            _ => self.advance(kind, before, number, reply),
        }
    }

    fn order(&mut self, order: &[u8], offer: bool, before: &[u8], number: u32, reply: &[u8]) {
        if number == 5 { return; }
        let (n, clock, next) = (usize::from(before[STATION_COUNT_AT]), get32(before, CLOCK_AT), get32(before, NEXT_AT));
        let due_in = get32(order, BLOCK_DUE_IN_AT);
        let due = u64::from(clock) + u64::from(if due_in == 0 { DEFAULT_DUE_IN } else { due_in });
        let costs = || (0..n).map(|j| get16(order, BLOCK_COSTS_AT + 2 * j));
        let margin = get32(reply, REPLY_MARGIN_AT) as i32;
        match number {
            0 => {
                if margin == 0 { self.edge("done, margin 0"); }
                if margin == 1 { self.edge("done, margin 1"); }
                if due == u64::from(LAST_TICK) { self.edge("done, due at the last tick"); }
                if due_in == MAX_DUE_IN { self.edge("done, due-in 60,000"); }
                if due_in == 0 { self.edge("done, due-in 0"); }
                if due_in == 0 && u64::from(get32(reply, REPLY_TICK_AT)) == due { self.edge("done, due-in 0, delay sum 9,000"); }
                if costs().any(|c| c == MAX_COST) { self.edge("done, cost 6,000"); }
                if costs().all(|c| c == 1) { self.edge("done, costs 1"); }
                if offer && next == LAST_TICKET { self.edge("done, last ticket"); }
                if offer && usize::from(before[LIVE_COUNT_AT]) == MAX_LIVE - 1 { self.edge("done, 32 live after it"); }
            }
            6 if costs().any(|c| c == 0) => self.edge("6, cost 0"),
            6 if costs().any(|c| c == MAX_COST + 1) => self.edge("6, cost 6,001"),
            6 if costs().all(|c| c <= MAX_COST) && (n..MAX_STATIONS).any(|j| order[BLOCK_RANKS_AT + j] != 0) => self.edge("6, rank beyond N"),
            6 if costs().all(|c| c <= MAX_COST) => self.edge("6, cost beyond N"),
            7 if due_in == MAX_DUE_IN + 1 => self.edge("7, due-in 60,001"),
            8 if due == u64::from(LAST_TICK) + 1 => self.edge("8, due one tick too late"),
            9 if usize::from(before[LIVE_COUNT_AT]) == MAX_LIVE => self.edge("9, and 32 live"),
            11 if margin == -1 => {
                self.edge("11, margin -1");
                if due_in == 0 { self.edge("11, due-in 0, margin -1"); }
            }
            12 if margin == -1 => self.edge("12, margin -1"),
            _ => {}
        }
    }

    fn format_order(&mut self, (format, due_in, rank, sheet): (u32, u32, u8, &[u8]), before: &[u8], number: u32, reply: &[u8]) {
        if number == 5 { return; }
        let (n, clock) = (usize::from(before[STATION_COUNT_AT]), get32(before, CLOCK_AT));
        let (fixed, speed) = (|j| get16(sheet, fixed_at(j)), |j| get16(sheet, speed_at(j)));
        let any_speed_0 = || (0..n).any(|j| speed(j) == 0);
        // The costs, where there are any.
        let costs = || (0..n).filter_map(|j| formats::cost(format, sheet, j));
        let (most, wide) = (u32::from(MAX_COST), u32::from(u16::MAX));
        let margin = get32(reply, REPLY_MARGIN_AT) as i32;
        match number {
            0 => {
                let side = LONG_SIDES[format as usize - 1];
                let rest = |j| side % u32::from(speed(j));
                if margin == 0 { self.edge("format, done, margin 0"); }
                if due_in == MAX_DUE_IN { self.edge("format, done, due-in 60,000"); }
                if due_in == 0 { self.edge("format, done, due-in 0"); }
                if due_in == 0 && get32(reply, REPLY_TICK_AT) - clock == DEFAULT_DUE_IN { self.edge("format, done, due-in 0, delay sum 9,000"); }
                if rank == 0 { self.edge("format, done, rank 0"); }
                if rank == u8::MAX { self.edge("format, done, rank 255"); }
                if costs().any(|c| c == most) { self.edge("format, done, cost 6,000"); }
                if costs().all(|c| c == 1) { self.edge("format, done, costs 1"); }
                if (0..n).any(|j| fixed(j) == 0) { self.edge("format, done, fixed ticks 0"); }
                if (0..n).any(|j| speed(j) == 1) { self.edge("format, done, speed 1"); }
                if (0..n).any(|j| speed(j) == u16::MAX) { self.edge("format, done, speed 65,535"); }
                if (0..n).any(|j| rest(j) == 0) { self.edge("format, done, nothing to round"); }
                if (0..n).any(|j| rest(j) == 1) { self.edge("format, done, one millimetre rounded up"); }
                if (n..MAX_STATIONS).any(|j| speed(j) == 0) { self.edge("format, done, speed 0 beyond N"); }
                if (n..MAX_STATIONS).any(|j| fixed(j) > MAX_COST) { self.edge("format, done, fixed ticks above 6,000 beyond N"); }
            }
            19 => {
                if format == 0 { self.edge("format, 19, format 0"); }
                if format == MAX_FORMAT + 1 { self.edge("format, 19, format 11"); }
                if format == 257 { self.edge("format, 19, format 257"); }
                if format > 0x7fff_ffff { self.edge("format, 19, a format of 32 bits"); }
                if any_speed_0() { self.edge("format, 19, and a speed of 0"); }
                if (0..n).any(|j| fixed(j) > MAX_COST) { self.edge("format, 19, and a cost above 6,000"); }
            }
            20 => {
                if speed(n - 1) == 0 && (0..n - 1).all(|j| speed(j) != 0) { self.edge("format, 20, speed 0 at N alone"); }
                if costs().any(|c| c > most) { self.edge("format, 20, and a cost above 6,000"); }
                if due_in > MAX_DUE_IN { self.edge("format, 20, and due-in above 60,000"); }
            }
            6 => {
                if costs().all(|c| c <= most + 1) { self.edge("format, 6, cost 6,001"); }
                if (0..n).any(|j| fixed(j) == u16::MAX) { self.edge("format, 6, fixed ticks 65,535"); }
                if costs().all(|c| (1..=most).contains(&(c & wide))) { self.edge("format, 6, costs that two bytes would make good"); }
                if due_in > MAX_DUE_IN { self.edge("format, 6, and due-in above 60,000"); }
            }
            7 if due_in == MAX_DUE_IN + 1 => self.edge("format, 7, due-in 60,001"),
            7 if due_in == u32::MAX => self.edge("format, 7, due-in 4,294,967,295"),
            11 if margin == -1 => {
                self.edge("format, 11, margin -1");
                if due_in == 0 { self.edge("format, 11, due-in 0, margin -1"); }
            }
            12 if margin == -1 => self.edge("format, 12, margin -1"),
            _ => {}
        }
    }

    fn advance(&mut self, kind: Kind, before: &[u8], number: u32, reply: &[u8]) {
        let (n, live, clock) = (usize::from(before[STATION_COUNT_AT]), usize::from(before[LIVE_COUNT_AT]), get32(before, CLOCK_AT));
        if number != 0 {
            if live > 0 { self.edge("13, orders live"); }
            return;
        }
        if clock == LAST_TICK - 1 { self.edge("done, last tick"); }
        if get32(before, NEXT_AT) == 0 { self.edge("done, no ticket left"); }
        if get32(reply, REPLY_TICKET_AT) != 0 { self.out[n - 1] += 1; }
        let mut leaving = 0;
        for j in 0..n {
            // Who is in service at the station, and who of those that wait there goes first: records are in the order of tickets.
            let serves = get32(before, service(j) + SERVED_AT);
            let ticket = |k: usize| get32(before, record(k) + TICKET_AT);
            let rank = |k: usize| before[record(k) + RANKS_AT + j];
            let due = |k: usize| get32(before, record(k) + DUE_AT);
            let waits = |k: &usize| usize::from(before[record(*k) + STATION_AT]) == j + 1 && ticket(*k) != serves;
            let mut others: Vec<usize> = (0..live).filter(waits).collect();
            let first = others.iter().copied().min_by_key(|k| (rank(*k), due(*k)));
            others.retain(|k| Some(*k) != first);
            if let (Some(first), 0) = (first, serves) {
                if get16(before, record(first) + COSTS_AT + 2 * j) == 1 { leaving += 1; }
                self.start(kind, before, (n, live, j), first, &others);
            }
            if serves != 0 {
                if get16(before, service(j) + LEFT_AT) == 1 { leaving += 1; }
                let served = (0..live).find(|k| ticket(*k) == serves);
                if let (Some(served), Some(first)) = (served, first) {
                    if rank(first) < rank(served) { self.edge("in service, a better rank waits"); }
                    if rank(first) == rank(served) && due(first) < due(served) { self.edge("in service, an equal rank waits that is due earlier"); }
                }
            }
        }
        if leaving > 1 { self.edge("two or more leave their stations"); }
        if leaving == MAX_STATIONS { self.edge("all of eight leave their stations"); }
        if live == MAX_LIVE && get32(reply, REPLY_TICKET_AT) != 0 { self.edge("out, 32 live before it"); }
    }

    /// A start at station j, counted from 0, by the order of record `first`, where these others wait.
    fn start(&mut self, kind: Kind, before: &[u8], (n, live, j): (usize, usize, usize), first: usize, others: &[usize]) {
        let ticket = |k: usize| get32(before, record(k) + TICKET_AT);
        let due = |k: usize| get32(before, record(k) + DUE_AT);
        let due_in = |k: usize| due(k) - get32(before, record(k) + ACCEPTED_AT);
        let low_half = |k: usize| due(k) & 0xffff;
        // Of another order: whether its rank is that of the first, and then whether it is due at the same tick.
        let equal = |k: usize| before[record(k) + RANKS_AT + j] == before[record(first) + RANKS_AT + j];
        let alike = |k: usize| equal(k) && due(k) == due(first);
        let any = |seen: &dyn Fn(usize) -> bool| others.iter().any(|k| seen(*k));
        let before_it = others.iter().filter(|k| equal(**k) && **k < first).count();
        self.starts[n - 1][j] += 1;
        for (name, seen) in [
            ("start, by rank before a smaller ticket", any(&|k| !equal(k) && k < first)),
            ("start, by rank before an earlier due tick", any(&|k| !equal(k) && due(k) < due(first))),
            ("start, ranks tie", any(&|k| equal(k))),
            ("start, ranks of sixteen tie", others.iter().filter(|k| equal(**k)).count() >= 15),
            ("start, by due tick before a smaller ticket", before_it > 0),
            ("start, by due tick before two smaller tickets", before_it > 1),
            ("start, by due tick before a smaller due-in", any(&|k| equal(k) && !alike(k) && due_in(k) < due_in(first))),
            ("start, by due tick before a smaller low half", any(&|k| equal(k) && low_half(k) < low_half(first))),
            ("start, by due tick, on both sides of 2,147,483,648", any(&|k| equal(k) && (due(k) ^ due(first)) >> 31 == 1)),
            ("start, ranks and due ticks tie", any(&|k| alike(k))),
            ("start, by ticket before a smaller due-in", any(&|k| alike(k) && due_in(k) < due_in(first))),
            ("start, by ticket, on both sides of 2,147,483,648", any(&|k| alike(k) && (ticket(k) ^ ticket(first)) >> 31 == 1)),
        ] {
            if seen { self.edge(name); }
        }
        if before_it > 0 {
            self.due_starts[n - 1][j] += 1;
            self.due_live.0[live] += 1;
            self.book_due_starts += u64::from(matches!(kind, Kind::Book | Kind::LongBook));
        }
    }

    pub fn add(&mut self, o: &Counts) {
        fn sum(a: &mut [u64], b: &[u64]) { for (x, y) in a.iter_mut().zip(b) { *x += y; } }
        for c in 0..CALLS.len() {
            sum(&mut self.numbers[c], &o.numbers[c]);
            sum(&mut self.live[c].0, &o.live[c].0);
            sum(&mut self.formats[c], &o.formats[c]);
        }
        for n in 0..MAX_STATIONS {
            sum(&mut self.starts[n], &o.starts[n]);
            sum(&mut self.due_starts[n], &o.due_starts[n]);
        }
        sum(&mut self.due_live.0, &o.due_live.0);
        sum(&mut self.out, &o.out);
        sum(&mut self.lists, &o.lists);
        sum(&mut self.calls, &o.calls);
        sum(&mut self.images, &o.images);
        sum(&mut self.alone, &o.alone);
        self.book_formats += o.book_formats;
        self.book_due_starts += o.book_due_starts;
        if self.bytes.is_empty() { self.bytes.clone_from(&o.bytes); } else { sum(&mut self.bytes, &o.bytes); }
        for (wrong, count) in &o.lengths { *self.lengths.entry(*wrong).or_default() += count; }
        for (name, count) in &o.edges { *self.edges.entry(name).or_default() += count; }
        for (name, count) in &o.tables { *self.tables.entry(name).or_default() += count; }
        self.book.add(&o.book);
    }

    /// What was seen, one count a line: `CALL NUMBER: COUNT` and the like.
    pub fn lines(&self) -> Vec<(String, u64)> {
        let mut all = Vec::new();
        let mut say = |name: String, count: u64| all.push((name, count));
        for (c, call) in CALLS.iter().enumerate() {
            for (number, count) in self.numbers[c].iter().enumerate() {
                if *count > 0 { say(format!("{call} {number}"), *count); }
            }
        }
        for (c, call) in CALLS.iter().enumerate().skip(1) {
            for (live, count) in self.live[c].0.iter().enumerate() { say(format!("{call} with {live} live"), *count); }
        }
        for (live, count) in self.due_live.0.iter().enumerate() { say(format!("start by due tick with {live} live"), *count); }
        for (c, call) in CALLS.iter().enumerate().filter(|(_, call)| call.ends_with("_format")) {
            for (k, count) in self.formats[c].iter().enumerate() { say(format!("{call} done with format {}", k + 1), *count); }
        }
        for n in 0..MAX_STATIONS {
            for j in 0..=n {
                say(format!("start at station {} of {}", j + 1, n + 1), self.starts[n][j]);
                say(format!("start by due tick at station {} of {}", j + 1, n + 1), self.due_starts[n][j]);
            }
            say(format!("out with {} stations", n + 1), self.out[n]);
        }
        for (k, kind) in KINDS.iter().enumerate() {
            say(format!("lists of {kind}"), self.lists[k]);
            say(format!("calls of {kind}"), self.calls[k]);
        }
        for (k, kind) in ["sound", "of another length", "of another mark or version", "not sound"].iter().enumerate() {
            say(format!("images {kind}"), self.images[k]);
        }
        for (k, (_, clause)) in CLAUSES.iter().enumerate() { say(format!("alone {clause}"), self.alone[k]); }
        say("least damages of a byte".to_string(), self.least_hurt());
        for ((buffer, length), count) in &self.lengths { say(format!("{buffer} of {length} bytes"), *count); }
        for (name, count) in &self.edges { say(format!("edge {name}"), *count); }
        for (name, count) in &self.tables { say(format!("table {name}"), *count); }
        let b = &self.book;
        for (name, count) in [
            ("calls", b.calls), ("ticks", b.ticks), ("accepted", b.accepted), ("accepted by format", self.book_formats), ("out", b.out),
            ("starts by due tick", self.book_due_starts),
            ("most live", b.most_live), ("largest company", b.largest_company),
            ("out exactly at its sum", b.tight), ("out exactly at its sum, with company", b.tight_with_company),
            ("out later than without the last maximum", b.later_than_less[0]), ("out later than without later company", b.later_than_less[1]),
        ] {
            say(format!("book {name}"), count);
        }
        all
    }

    /// The same for people, in few lines.
    pub fn text(&self) -> String {
        let mut text = String::new();
        let mut line = |head: &str, items: Vec<String>| text.push_str(&format!("{head}: {}\n", items.join(", ")));
        let total = self.total().max(1);
        let share = |k: usize| format!("{} {} lists, {} calls ({} %)", KINDS[k], self.lists[k], self.calls[k], 100 * self.calls[k] / total);
        line("lists", (0..KINDS.len()).map(share).collect());
        for (c, call) in CALLS.iter().enumerate() {
            let seen = self.numbers[c].iter().enumerate().filter(|(_, count)| **count > 0);
            line(call, seen.map(|(number, count)| format!("{number}: {count}")).collect());
        }
        let by_format = |k: usize| format!("{}: {}", k + 1, self.formats.iter().map(|of_call| of_call[k]).sum::<u64>());
        line("done by format", (0..MAX_FORMAT as usize).map(by_format).collect());
        let by_live = |live: usize| format!("{live}: {}", (1..CALLS.len()).map(|c| self.live[c].0[live]).sum::<u64>());
        line("calls by live orders", (0..=MAX_LIVE).map(by_live).collect());
        line("images", vec![
            format!("{} sound", self.images[0]), format!("{} not sound", self.images[3]), format!("{} of another length", self.images[1]),
            format!("{} of another mark or version", self.images[2]), format!("each byte damaged in {} at least", self.least_hurt()),
        ]);
        line("one clause broken alone", (0..CLAUSES.len()).map(|k| format!("{} {}", CLAUSES[k].1, self.alone[k])).collect());
        line("orders out by N", (0..MAX_STATIONS).map(|n| format!("{}: {}", n + 1, self.out[n])).collect());
        line("wrong lengths", self.lengths.iter().map(|((buffer, length), count)| format!("{buffer} {length}: {count}")).collect());
        let edges: Vec<String> = self.edges.iter().map(|(name, count)| format!("{name} {count}")).collect();
        line("at an edge", vec![edges.join("; ")]);
        line("plan tables", self.tables.iter().map(|(name, count)| format!("{name} {count}")).collect());
        let b = &self.book;
        line("run book", vec![
            format!("{} calls", b.calls), format!("{} ticks", b.ticks), format!("{} accepted", b.accepted),
            format!("{} of these by format", self.book_formats), format!("{} started by due tick", self.book_due_starts), format!("{} out", b.out),
            format!("{} of those exactly at the sum with others in company", b.tight_with_company),
            format!("{} and {} later than by a smaller sum", b.later_than_less[0], b.later_than_less[1]),
            format!("largest company {}", b.largest_company), format!("most live {}", b.most_live),
        ]);
        text
    }
}
