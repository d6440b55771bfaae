//! The exact test for one processor: backward steps settle that there is no miss, a forward loop names the least one.

use crate::divide::{Divide, Quiet};
use crate::plain::{busy_length, demand_and_next, demand_test_allowed, whole_periods};

/// Rows are looked at so many at a time.
const GROUP: usize = 4;

/// What is noted of each group of rows: its demand in a length, and its last deadline within that length. The demand is the
/// same in every shorter length from that deadline on, so the group is looked at again only before it.
struct Notes {
    since: [u32; 16],
    most: [u32; 16],
}

impl Notes {
    /// Nothing noted: every group is looked at.
    fn none() -> Notes {
        Notes {
            since: [u32::MAX; 16],
            most: [0; 16],
        }
    }

    /// The demand in a length, which is shorter than those noted.
    fn demand<D: Divide>(&mut self, words: &[u32], length: u32) -> u32 {
        let mut sum = 0;
        let notes = self.since.iter_mut().zip(&mut self.most);
        for (rows, (since, most)) in words.chunks(3 * GROUP).zip(notes) {
            if length < *since {
                (*since, *most) = look::<D>(rows, length);
            }
            sum += *most;
        }
        sum
    }
}

/// The last deadline of these rows within a length, or 0, and their demand in it.
fn look<D: Divide>(rows: &[u32], length: u32) -> (u32, u32) {
    let (mut since, mut demand) = (0, 0);
    for row in rows.chunks_exact(3) {
        let (cost, deadline, period) = (row[0], row[1], row[2]);
        if deadline <= length {
            let behind = whole_periods::<D>(length - deadline, period);
            since = since.max(deadline + behind * period);
            demand += (behind + 1) * cost;
        }
    }
    (since, demand)
}

/// How far down backward steps come from a high length: to the low one or below it, or to the first that misses. Where a
/// length's demand is less, every length from there on is clear.
fn clear_down_to<D: Divide>(words: &[u32], low: u32, high: u32) -> u32 {
    let (mut length, mut notes) = (high, Notes::none());
    while low < length {
        let demand = notes.demand::<D>(words, length);
        if length < demand {
            return length;
        }
        length = demand.saturating_sub(1);
    }
    length
}

/// A length up to which no length misses: the whole range is tried first, then half of each gap that is left.
fn clear_up_to<D: Divide>(words: &[u32], last: u32) -> u32 {
    let (mut clear, mut stopped, mut middle) = (0, last + 1, last);
    while clear < middle {
        let reached = clear_down_to::<D>(words, clear, middle);
        if reached <= clear {
            clear = middle;
        } else {
            stopped = reached;
        }
        middle = clear + (stopped - clear) / 2;
    }
    clear
}

/// The least length from one to another that misses, from deadline to deadline.
fn least_miss<D: Divide>(words: &[u32], first: u32, last: u32) -> Option<u32> {
    let mut length = first;
    while length <= last {
        let (demand, next) = demand_and_next::<D>(words, length);
        if demand > length {
            return Some(length);
        }
        length = next;
    }
    None
}

/// The demand test: outcome (0 undecided, 1 miss, 2 fits) and length.
pub fn one_processor(words: &[u32], horizon: u32) -> (u32, u32) {
    one_processor_by::<Quiet>(words, horizon)
}

/// The demand test by a divide.
pub fn one_processor_by<D: Divide>(words: &[u32], horizon: u32) -> (u32, u32) {
    if !demand_test_allowed(words, horizon) {
        return (0, 0);
    }
    let busy = busy_length::<D>(words, horizon);
    let last = busy.unwrap_or(horizon);
    let clear = clear_up_to::<D>(words, last);
    match least_miss::<D>(words, clear + 1, last) {
        Some(length) => (1, length),
        None => busy.map_or((0, 0), |length| (2, length)),
    }
}
