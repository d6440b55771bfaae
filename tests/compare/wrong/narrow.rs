//! Slips of sums, products and quotients that are kept in too few bits.

use super::quick::climbing;
use super::Slip;
use second::one_row::{bcl, rta};
use second::program::Program;
use second::rows::{Row, Sheet};

/// The slips in the one-row answer: what a wrong program does, and the part that is exchanged.
pub fn in_one_row() -> Vec<Slip> {
    let lists: [&[Slip]; 10] = [
        &kept_in!("BCL's sum", bcl, bcl_sum, [12, 16, 18, 20, 22, 24, 25]),
        &kept_in!("RTA's sum", rta, rta_sum, [12, 16, 18, 20, 22]),
        &kept_in!("BCL's part", bcl, bcl_part, [12, 16, 18, 20, 22, 24, 25]),
        &kept_in!("RTA's part", rta, rta_part, [12, 16]),
        &kept_in!("the periods of I", share, share_quotient, [12, 16, 18]),
        &kept_in!("the whole jobs of I", share, share_product, [12, 16, 18]),
        &kept_in!("the periods of W", work, work_quotient, [12, 16]),
        &kept_in!("the whole jobs of W", work, work_product, [12, 16, 18]),
        &kept_in!("the window of W", work, work_reach, [12, 16, 18]),
        &kept_in!("RTA's bound", rta, rta_bound, [12, 16, 18]),
    ];
    lists.concat()
}

/// The slips on one processor.
pub fn on_one_processor() -> Vec<Slip> {
    let lists: [&[Slip]; 6] = [
        &kept_in!("the time behind D", demand, demand_behind, [12, 16, 18, 20]),
        &kept_in!("the periods of a demand", demand, demand_quotient, [12]),
        &kept_in!("a row's demand", demand, demand_product, [12, 16, 18]),
        &kept_in!("the demand", misses, demand_sum, [12, 16, 18, 20]),
        &kept_in!("the jobs begun", jobs_begun, begun_quotient, [12]),
        &kept_in!(
            "the cost begun",
            fills,
            busy_sum,
            [12, 16, 18, 20, 22, 24, 25]
        ),
    ];
    lists.concat()
}

/// A number's lowest bits.
pub fn cut<const BITS: u32>(number: u64) -> u64 {
    number & ((1 << BITS) - 1)
}

/// The processors' part of a sum in so many bits.
fn of_cut_sum<const BITS: u32>(sum: u64, processors: u64) -> u64 {
    cut::<BITS>(sum) / processors
}

/// The processors' part of a sum, in so many bits.
fn cut_part<const BITS: u32>(sum: u64, processors: u64) -> u64 {
    cut::<BITS>(sum / processors)
}

/// A program that divides sums otherwise.
fn dividing(program: &Program, divided: fn(u64, u64) -> u64) -> Program {
    Program {
        divided,
        ..*program
    }
}

/// BCL with its sum cut.
fn bcl_sum<const BITS: u32>(
    program: &Program,
    sheet: &Sheet,
    asked: usize,
    bounds: &[u64],
) -> Option<u64> {
    bcl(&dividing(program, of_cut_sum::<BITS>), sheet, asked, bounds)
}

/// BCL with a processor's part cut.
fn bcl_part<const BITS: u32>(
    program: &Program,
    sheet: &Sheet,
    asked: usize,
    bounds: &[u64],
) -> Option<u64> {
    bcl(&dividing(program, cut_part::<BITS>), sheet, asked, bounds)
}

/// RTA with its sum cut.
pub fn rta_sum<const BITS: u32>(
    program: &Program,
    sheet: &Sheet,
    asked: usize,
    bounds: &[u64],
) -> Option<u64> {
    rta(&dividing(program, of_cut_sum::<BITS>), sheet, asked, bounds)
}

/// RTA with a processor's part cut.
pub fn rta_part<const BITS: u32>(
    program: &Program,
    sheet: &Sheet,
    asked: usize,
    bounds: &[u64],
) -> Option<u64> {
    rta(&dividing(program, cut_part::<BITS>), sheet, asked, bounds)
}

/// RTA by a climb, with its sum cut: for sheets on which trying every value takes long.
pub fn quick_rta_sum<const BITS: u32>(
    program: &Program,
    sheet: &Sheet,
    asked: usize,
    bounds: &[u64],
) -> Option<u64> {
    climbing(&dividing(program, of_cut_sum::<BITS>), sheet, asked, bounds)
}

/// RTA's answer cut.
fn rta_bound<const BITS: u32>(
    program: &Program,
    sheet: &Sheet,
    asked: usize,
    bounds: &[u64],
) -> Option<u64> {
    let least = sheet.rows[asked].cost;
    rta(program, sheet, asked, bounds).map(|bound| cut::<BITS>(bound).max(least))
}

/// What is left of a window behind its whole periods, as far as it counts in I.
fn share_left(other: Row, bound: u64, window: u64) -> u64 {
    let slack = other.deadline - bound;
    (window % other.period)
        .saturating_sub(slack)
        .min(other.cost)
}

/// I with its periods cut.
fn share_quotient<const BITS: u32>(other: Row, bound: u64, window: u64) -> u64 {
    cut::<BITS>(window / other.period) * other.cost + share_left(other, bound, window)
}

/// I with its whole jobs cut.
fn share_product<const BITS: u32>(other: Row, bound: u64, window: u64) -> u64 {
    cut::<BITS>(window / other.period * other.cost) + share_left(other, bound, window)
}

/// W with its periods cut.
pub fn work_quotient<const BITS: u32>(other: Row, bound: u64, length: u64) -> u64 {
    let reach = length + bound - other.cost;
    cut::<BITS>(reach / other.period) * other.cost + other.cost.min(reach % other.period)
}

/// W with its whole jobs cut.
fn work_product<const BITS: u32>(other: Row, bound: u64, length: u64) -> u64 {
    let reach = length + bound - other.cost;
    cut::<BITS>(reach / other.period * other.cost) + other.cost.min(reach % other.period)
}

/// W with its window cut.
pub fn work_reach<const BITS: u32>(other: Row, bound: u64, length: u64) -> u64 {
    let reach = cut::<BITS>(length + bound - other.cost);
    reach / other.period * other.cost + other.cost.min(reach % other.period)
}

/// Demand of one job where the time behind the deadline, cut, is below a period.
pub fn demand_behind<const BITS: u32>(row: Row, length: u64) -> u64 {
    let once = |behind: u64| cut::<BITS>(behind) < row.period;
    let jobs = |behind: u64| {
        if once(behind) {
            1
        } else {
            behind / row.period + 1
        }
    };
    length.checked_sub(row.deadline).map_or(0, jobs) * row.cost
}

/// Demand with its periods cut.
pub fn demand_quotient<const BITS: u32>(row: Row, length: u64) -> u64 {
    let periods = |after: u64| cut::<BITS>(after / row.period) + 1;
    length.checked_sub(row.deadline).map_or(0, periods) * row.cost
}

/// Demand cut.
pub fn demand_product<const BITS: u32>(row: Row, length: u64) -> u64 {
    let jobs = |after: u64| after / row.period + 1;
    cut::<BITS>(length.checked_sub(row.deadline).map_or(0, jobs) * row.cost)
}

/// Whether the sheet's demand, cut, is more than a length can serve.
pub fn demand_sum<const BITS: u32>(demand: u64, length: u64) -> bool {
    cut::<BITS>(demand) > length
}

/// The jobs that can begin within a length, cut.
pub fn begun_quotient<const BITS: u32>(row: Row, length: u64) -> u64 {
    cut::<BITS>(length.div_ceil(row.period))
}

/// Whether the cost of all jobs begun, cut, fills a length.
pub fn busy_sum<const BITS: u32>(begun: u64, length: u64) -> bool {
    cut::<BITS>(begun) == length
}
