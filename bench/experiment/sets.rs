//! Task sets as the papers draw them, and how many of them each test accepts.

use crate::feasible::{may_be_feasible, total_utilisation};
use guarded::refine_at_once;
use second::random::Random;
use second::rows::{words_of, Row};
use sheets::{exponential_row, rows_shown};

/// How many ranges of total utilisation there are, each 4 hundredths of the processors wide.
pub const RANGES: usize = 25;

/// The most rows that a sheet may have.
const MOST_ROWS: usize = 64;

/// An experiment: processors, and the mean of the exponential distribution that utilisation is drawn from.
#[derive(Clone, Copy)]
pub struct Experiment {
    pub processors: u64,
    pub mean: f64,
}

/// How many task sets were looked at and accepted, by range of total utilisation.
#[derive(Clone, Default)]
pub struct Tally {
    pub total: [u64; RANGES],
    pub rta: [u64; RANGES],
    pub bcl: [u64; RANGES],
}

/// Whether the proved program accepts rows by a method.
fn accepts(rows: &[Row], processors: u64, method: u32) -> bool {
    let mut bounds = [0; MOST_ROWS];
    let marks = refine_at_once(
        &words_of(rows),
        processors as u32,
        method,
        &mut bounds[..rows.len()],
    );
    marks.count_ones() as usize == rows.len()
}

impl Experiment {
    /// One more row.
    fn row(&self, random: &mut Random) -> Row {
        exponential_row(random, self.mean)
    }

    /// Its processors and mean, as the page says them.
    pub fn name(&self) -> String {
        format!(
            "{} processors, mean utilisation {:.2}",
            self.processors, self.mean
        )
    }

    /// Counts one task set, or says that BCL accepts it and RTA does not.
    fn count(&self, rows: &[Row], tally: &mut Tally) -> Result<(), String> {
        let filled = total_utilisation(rows) / self.processors as f64;
        let range = ((filled * RANGES as f64) as usize).min(RANGES - 1);
        let (rta, bcl) = (
            accepts(rows, self.processors, 1),
            accepts(rows, self.processors, 0),
        );
        if bcl && !rta {
            return Err(format!(
                "on {} processors BCL accepts what RTA does not: {}",
                self.processors,
                rows_shown(&words_of(rows))
            ));
        }
        tally.total[range] += 1;
        tally.rta[range] += rta as u64;
        tally.bcl[range] += bcl as u64;
        Ok(())
    }

    /// Looks at so many task sets: from one row more than processors on, a row is added until the set cannot be feasible.
    /// Breaks off where BCL accepts one that RTA does not.
    pub fn run(&self, count: u64) -> Result<Tally, String> {
        let mut random = Random::of([self.processors, (self.mean * 100.0) as u64]);
        let mut tally = Tally::default();
        let mut rows: Vec<Row> = Vec::new();
        let mut counted = 0;
        while counted < count {
            if rows.is_empty() {
                rows = (0..=self.processors)
                    .map(|_| self.row(&mut random))
                    .collect();
            }
            if rows.len() > MOST_ROWS || !may_be_feasible(&rows, self.processors) {
                rows.clear();
                continue;
            }
            self.count(&rows, &mut tally)?;
            counted += 1;
            rows.push(self.row(&mut random));
        }
        Ok(tally)
    }
}
