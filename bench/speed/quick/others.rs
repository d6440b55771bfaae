//! The other rows of a turn.

/// More than any sum of work: what a row may still bring whose periods are all work.
const ENDLESS: u32 = 1 << 24;

/// Another row as a turn meets it.
#[derive(Clone, Copy, Default)]
struct Other {
    cost: u32,
    period: u32,
    /// The bound less the cost.
    ahead: u32,
    /// The most that the row adds, whatever the value.
    share: u32,
    /// The most that a period brings.
    rise: u32,
}

impl Other {
    /// What the row does up to a value.
    fn work(&self, tried: u32) -> u32 {
        let reach = tried + self.ahead;
        reach / self.period * self.cost + (reach % self.period).min(self.cost)
    }
}

/// The other rows of a turn that may still add more, and by how much more each is sure to add, one with each value, behind the
/// value tried. Only the first `count` places of a list count. What all rows but these add is settled: their whole share.
pub struct Others {
    count: usize,
    settled: u32,
    rows: [Other; 64],
    room: [u32; 64],
}

impl Others {
    /// Lists that hold no rows yet.
    pub fn none() -> Others {
        Others {
            count: 0,
            settled: 0,
            rows: [Other::default(); 64],
            room: [0; 64],
        }
    }

    /// The rows taken in.
    fn rows(&self) -> &[Other] {
        &self.rows[..self.count]
    }

    /// Takes in every row but the asked one, with its share under these bounds. A share of 0 or 1 is settled at once.
    pub fn meet(&mut self, words: &[u32], asked: usize, bounds: &[u32]) {
        let window = words[3 * asked + 1];
        let (mut count, mut settled) = (0, 0);
        for (place, (row, &bound)) in words.chunks_exact(3).zip(bounds).enumerate() {
            if place != asked && count < 64 {
                let (cost, deadline, period) = (row[0], row[1], row[2]);
                let carried = (window % period).saturating_sub(deadline - bound);
                let share = window / period * cost + carried.min(cost);
                self.rows[count] = Other {
                    cost,
                    period,
                    ahead: bound - cost,
                    share,
                    rise: if cost == period { ENDLESS } else { cost },
                };
                count += (share > 1) as usize;
                settled += if share > 1 { 0 } else { share };
            }
        }
        (self.count, self.settled) = (count, settled);
    }

    /// Leaves out the rows that add their whole share at a value and up to a cap: they add no more behind it.
    pub fn leave_out(&mut self, tried: u32, cap: u32) {
        let mut count = 0;
        for place in 0..self.count.min(64) {
            let row = self.rows[place];
            let whole = row.share <= cap && row.work(tried) >= row.share;
            self.rows[count] = row;
            count += !whole as usize;
            self.settled += if whole { row.share } else { 0 };
        }
        self.count = count;
    }

    /// The sum of the shares, each up to a cap.
    pub fn shares(&self, cap: u32) -> u32 {
        let shares = self.rows().iter().map(|row| row.share.min(cap));
        self.settled + shares.sum::<u32>()
    }

    /// The sum of what the rows add at a value, each up to a cap, and the sum of their rooms, which are worked out on the way.
    pub fn sum(&mut self, tried: u32, cap: u32) -> (u32, u32) {
        let (mut sum, mut rooms) = (self.settled, 0);
        for (row, room) in self.rows[..self.count].iter().zip(&mut self.room) {
            let reach = tried + row.ahead;
            let periods = reach / row.period;
            let whole = periods * row.cost;
            let into = reach - periods * row.period;
            let term = (whole + into.min(row.cost)).min(row.share.min(cap));
            *room = (whole + row.rise).min(row.share) - term;
            rooms += *room;
            sum += term;
        }
        (sum, rooms)
    }

    /// Of a stretch behind the value tried: the rooms that end within it, summed up, and how many rows rise all the way.
    pub fn rises(&self, stretch: u32) -> (u32, u32) {
        let (mut ending, mut rising) = (0, 0);
        for &room in &self.room[..self.count] {
            let all_the_way = room >= stretch;
            ending += if all_the_way { 0 } else { room };
            rising += all_the_way as u32;
        }
        (ending, rising)
    }

    /// The least work a unit of time that each row brings in the long run, in parts of 2^32.
    pub fn slopes(&self) -> [u64; 64] {
        let mut slopes = [0; 64];
        for (row, slope) in self.rows().iter().zip(&mut slopes) {
            *slope = ((row.cost as u64) << 32) / row.period as u64;
        }
        slopes
    }

    /// What the rows add at a value at the least, each up to a cap, by their slopes; in parts of 2^32.
    pub fn least_sum(&self, slopes: &[u64; 64], tried: u32, cap: u32) -> u64 {
        let lines = self.rows().iter().zip(slopes).map(|(row, slope)| {
            (slope * (tried + row.ahead) as u64).min((row.share.min(cap) as u64) << 32)
        });
        ((self.settled as u64) << 32) + lines.sum::<u64>()
    }
}
