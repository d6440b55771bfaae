//! The climb to RTA's answer, by jumps over values that cannot be solutions.

use super::others::Others;

/// After every so many steps of a climb rows that add no more are left out, and the chord is tried.
const STEPS_TO_A_CHORD: u32 = 16;

/// The shortest stretch that the chord is tried over.
const SHORTEST_CHORD: u32 = 64;

/// A stretch behind the value tried that holds no solution: the longest that the rooms show, by Newton's rule from what all
/// rooms together pay for down. The sum is over what it may be by so much.
fn jump(others: &Others, over: u32, rooms: u32, processors: u32, longest: u32) -> u32 {
    let mut stretch = longest.min((over + rooms) / processors);
    loop {
        let (ending, rising) = others.rises(stretch);
        if rising >= processors || over + ending >= (processors - rising) * stretch {
            return stretch;
        }
        stretch = (over + ending) / (processors - rising);
    }
}

/// The farthest value, halving the way to the deadline, with which and with the value tried the lines below the other rows'
/// work exclude all between; else the value tried.
fn far_from(others: &Others, processors: u32, cost: u32, tried: u32, longest: u32) -> u32 {
    let slopes = others.slopes();
    let excluded = |value: u32| {
        let cap = value - cost + 1;
        others.least_sum(&slopes, value, cap) >= ((processors * cap) as u64) << 32
    };
    if !excluded(tried) {
        return tried;
    }
    let mut stretch = longest;
    while stretch > SHORTEST_CHORD {
        if excluded(tried + stretch) {
            return tried + stretch;
        }
        stretch /= 2;
    }
    tried
}

/// RTA's answer: the least value that the other rows leave enough of; 0 where there is none up to the deadline.
pub fn least_solution(others: &mut Others, processors: u32, cost: u32, deadline: u32) -> u32 {
    let (mut tried, mut steps) = (cost, 0);
    loop {
        steps += 1;
        if steps % STEPS_TO_A_CHORD == 0 {
            others.leave_out(tried, tried - cost + 1);
            tried = far_from(others, processors, cost, tried, deadline - tried);
        }
        let cap = tried - cost + 1;
        let (sum, rooms) = others.sum(tried, cap);
        if sum < processors * cap {
            return tried;
        }
        let longest = deadline - tried;
        let stretch = jump(others, sum - processors * cap, rooms, processors, longest);
        if stretch == longest {
            return 0;
        }
        tried += stretch + 1;
    }
}
