//! Demand 3: lists from a cabinet just opened, with the simulator's run book beside them. After every call the book is asked: each order out was so by its
//! acceptance tick plus delay sum and by its due tick, each live order has the clock below both, the replies gave the book's tickets, ticks and margins, and 11
//! and 12 came only where the book's sums are late. After every seventh call an advance is tried on a copy, which has to be done if an order is live.

use crate::counts::Kind;
use crate::desk::{Clerk, Lender};
use crate::formats::FormatOrder;
use crate::layout::{IMAGE_SIZE, MAX_STATIONS};
use crate::level;
use second_simulator::calls::Call;
use second_simulator::gen::{Maker, Profile, Step};
use second_simulator::list::Runner;
use second_simulator::rng::Rng;

/// What the runner's image holds before the open.
const NOISE: u8 = 0xa5;

/// A list of so many calls by the simulator's maker.
pub fn list(clerk: &Clerk, kind: Kind, name: &str, seed: u64, calls: usize) {
    let mut rng = Rng::new(seed);
    let mut profile = Profile::random(&mut rng);
    if matches!(kind, Kind::LongBook) {
        // Orders of small costs with room to spare and other ranks: those that wait for long see hundreds of others come and go.
        profile.cost = rng.pick(&[1, 2, 3, 5, 9]);
        profile.rank = rng.pick(&[1, 5, 255]);
        profile.room = rng.range(1, 2);
    }
    // The maker's format orders have costs of hundreds of ticks, whatever the profile says. In half of the lists they stay; in the others, and in
    // the long ones, some of its blocks come by format, with the costs that they have.
    // Drawn apart, so that the maker makes the same lists with them as without.
    let mut other = Rng::new(!seed);
    let by_format = matches!(kind, Kind::LongBook) || other.one_in(2);
    if by_format { profile.format = 0; }
    // An order is out exactly at the end of its delay sum if it comes after all of its company, at every station without a gap. Costs of 1 leave no gap,
    // and in one list of eight all costs are 1, so that enough orders show it.
    if matches!(kind, Kind::Book) && other.one_in(8) { profile.cost = 1; }
    let n = rng.range(1, MAX_STATIONS as u64) as u32;
    let mut maker = Maker { level: level(), rng, profile };
    let mut machine = clerk.clone();
    clerk.0.borrow_mut().begin(kind, name, &[NOISE; IMAGE_SIZE]);
    let mut run = Runner::new(level(), n, &mut machine).unwrap_or_else(|e| clerk.0.borrow().fail(&e));
    for k in 0..calls {
        let mut lent = maker.next(&run.image);
        if by_format && other.one_in(3) { rewrite(&mut other, &mut lent.call, n as usize); }
        if let Err(e) = run.call(&lent) { clerk.0.borrow().fail(&format!("the run book: {e}")); }
        if k % 7 == 0 {
            clerk.0.borrow_mut().aside = true;
            if let Err(e) = run.check_next() { clerk.0.borrow().fail(&format!("the run book: {e}")); }
            clerk.0.borrow_mut().aside = false;
        }
    }
    clerk.0.borrow_mut().counts.book.add(&run.counts);
}

/// An order block that could be one by format becomes that.
fn rewrite(rng: &mut Rng, call: &mut Call, n: usize) {
    let (Call::Quote { order } | Call::Offer { order }) = &*call else { return };
    let Some(by_format) = FormatOrder::of_block(rng, order, n) else { return };
    *call = if call.reads_only() { by_format.quote() } else { by_format.offer() };
}

/// Keeps the book beside a list that was written: one that begins with an open that is done, and has no other image and no other open that is done.
pub fn replay(clerk: &Clerk, name: &str, steps: &[Step]) -> Option<Result<(), String>> {
    let calls: Vec<_> = steps.iter().skip(1).map(|step| if let Step::Call(lent) = step { Some(lent) } else { None }).collect::<Option<_>>()?;
    let opens = |call: &Call| if let Call::Open { stations: n @ 1..=8 } = call { Some(*n) } else { None };
    let n = opens(&calls.first()?.call)?;
    if calls[1..].iter().any(|lent| opens(&lent.call).is_some()) { return None; }
    let mut machine = clerk.clone();
    clerk.0.borrow_mut().begin(Kind::Book, name, &[NOISE; IMAGE_SIZE]);
    let mut run = match Runner::new(level(), n, &mut machine) { Ok(run) => run, Err(e) => return Some(Err(e)) };
    Some(calls[1..].iter().try_for_each(|lent| run.call(lent).and_then(|_| run.check_next())))
}
