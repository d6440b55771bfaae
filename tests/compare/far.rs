//! Cases far out, where the second program takes up to a second each or, for 63 middling rows, half a minute: numbers, sums and
//! lengths at the ends of what the sizes allow.
//!
//! Their answers were worked out once by two ways that share nothing: by the second program, which tries every value and looks at
//! every length, and by a plain script that climbs from the cost to the least solution, pass by pass in both engines' orders, that
//! goes from deadline to deadline with a running sum, and that climbs to the busy length. Both gave the same.

use crate::cases::{one_processor, one_row, refined, Case};
use crate::hinges;
use crate::threads::of_each;
use crate::wrong::{
    begun_quotient, busy_climb, busy_sum, clean_horizon, deadline_search, demand_product,
    demand_quotient, demand_sum, passes, quick_rta_sum, rta_part, rta_sum, work_quotient,
    work_reach, Slip,
};
use second::call::Entry;
use second::program::DOCUMENT;
use second::random::Random;
use second::rows::words_of;
use sheets::families::{climbing_pair, late_miss, nearly_one};

/// The largest number that a row may have.
const MOST: u32 = 1_000_000;

/// The largest horizon.
const HORIZON: u32 = 16_777_216;

/// A case far out, whether the second program is asked as well, and the slips that the case must show.
pub struct Far {
    pub case: Case,
    second_asked: bool,
    pub slips: Vec<Slip>,
}

/// A case that the second program answers soon enough.
pub fn asked_of_both(case: Case, slips: &[Slip]) -> Far {
    Far {
        case,
        second_asked: true,
        slips: slips.to_vec(),
    }
}

/// A case that the second program takes long for: only the proved program is asked.
fn asked_of_one(case: Case, slips: &[Slip]) -> Far {
    Far {
        case,
        second_asked: false,
        slips: slips.to_vec(),
    }
}

/// Rows of utilisation 1 whose busy length is their periods' common multiple, 15,030,000.
const LONG_BUSY: [u32; 9] = [
    1_500, 7_500, 7_500, 33_400, 66_800, 66_800, 5_400, 18_000, 18_000,
];

/// Rows whose deadlines fall together first at 16,777,215, with a demand of 16,785,595, above 2^24.
const LATE_AND_LARGE: [u32; 6] = [49_838, 986_895, 986_895, 758_969, 798_915, 798_915];

/// Rows whose busy length is the largest horizon itself, 2^24.
const BUSY_TO_THE_END: [u32; 6] = [977_975, 987_001, 987_001, 7_221, 799_001, 799_001];

/// So many words of the same row and then those of another.
fn twins_and_one(count: usize, twin: [u32; 3], other: [u32; 3]) -> Vec<u32> {
    [twin.repeat(count), other.to_vec()].concat()
}

/// The slips that a late miss of rows with tiny periods must show.
const LATE: [Slip; 6] = [
    ("gives up a search after a million deadlines", |program| {
        program.verdict = deadline_search::<1_000_000>
    }),
    ("keeps the periods of a demand in 16 bits", |program| {
        program.demand = demand_quotient::<16>
    }),
    ("keeps the periods of a demand in 22 bits", |program| {
        program.demand = demand_quotient::<22>
    }),
    ("keeps a row's demand in 20 bits", |program| {
        program.demand = demand_product::<20>
    }),
    ("keeps a row's demand in 22 bits", |program| {
        program.demand = demand_product::<22>
    }),
    ("keeps the demand in 22 bits", |program| {
        program.misses = demand_sum::<22>
    }),
];

/// Fits, where nothing but the horizon is clean.
const CLEAN: Slip = ("says fits because the horizon was clean", |program| {
    program.verdict = clean_horizon
});

/// Late misses.
fn misses() -> Vec<Far> {
    let late = words_of(&late_miss());
    let brimming = twins_and_one(34, [985_000, MOST, MOST], [564_432, MOST, MOST]);
    vec![
        asked_of_both(
            one_processor("a miss at 16,231,278", &late, HORIZON, 1, 16_231_278),
            &LATE,
        ),
        asked_of_both(
            one_processor("no miss before 16,231,278", &late, 16_231_277, 0, 0),
            &[CLEAN],
        ),
        asked_of_both(
            one_processor(
                "a demand above 2^24",
                &LATE_AND_LARGE,
                HORIZON,
                1,
                16_777_215,
            ),
            &[("keeps the demand in 24 bits", |program| {
                program.misses = demand_sum::<24>
            })],
        ),
        asked_of_both(
            one_processor("a demand above 2^25", &brimming, MOST, 1, 1_000_000),
            &[("keeps the demand in 25 bits", |program| {
                program.misses = demand_sum::<25>
            })],
        ),
    ]
}

/// Long busy lengths.
fn busy_lengths() -> Vec<Far> {
    let near = words_of(&nearly_one(MOST as u64));
    vec![
        asked_of_both(
            one_processor(
                "busy up to 15,030,000",
                &LONG_BUSY,
                15_030_000,
                2,
                15_030_000,
            ),
            &[("gives up a busy climb after 500 steps", |program| {
                program.verdict = busy_climb::<500>
            })],
        ),
        asked_of_both(
            one_processor("busy past 15,029,999", &LONG_BUSY, 15_029_999, 0, 0),
            &[CLEAN],
        ),
        asked_of_both(
            one_processor("busy up to 2^24", &BUSY_TO_THE_END, HORIZON, 2, 16_777_216),
            &[("keeps the cost begun in 24 bits", |program| {
                program.fills = busy_sum::<24>
            })],
        ),
        asked_of_both(
            one_processor("busy up to 998,718", &near, MOST, 2, 998_718),
            &[
                ("gives up a busy climb after 10,000 steps", |program| {
                    program.verdict = busy_climb::<10_000>
                }),
                ("keeps the jobs begun in 16 bits", |program| {
                    program.jobs_begun = begun_quotient::<16>
                }),
                ("keeps the jobs begun in 18 bits", |program| {
                    program.jobs_begun = begun_quotient::<18>
                }),
            ],
        ),
    ]
}

/// One row that meets 63 twins due at their cost, by RTA, with every bound at its deadline.
fn meeting_twins(name: &'static str, cost: u32, long: u32, processors: u32, bound: u64) -> Case {
    let rows = twins_and_one(63, [cost, cost, long], [1, long, long]);
    let bounds = [vec![cost; 63], vec![long]].concat();
    one_row(name, &rows, processors, 1, &bounds, 63, bound)
}

/// Sums by RTA up to the largest that there are.
fn sums() -> Vec<Far> {
    vec![
        asked_of_both(
            meeting_twins("the largest sum", MOST - 1, MOST, 63, 1_000_000),
            &[
                ("keeps RTA's sum in 24 bits", |program| {
                    program.rta = rta_sum::<24>
                }),
                ("keeps RTA's sum in 25 bits", |program| {
                    program.rta = rta_sum::<25>
                }),
            ],
        ),
        asked_of_both(
            meeting_twins("a part just past 2^18", 4_300, 10_000, 1, 0),
            &[("keeps RTA's part in 18 bits", |program| {
                program.rta = rta_part::<18>
            })],
        ),
        asked_of_both(
            meeting_twins("a part just past 2^20", 17_000, 25_000, 1, 0),
            &[("keeps RTA's part in 20 bits", |program| {
                program.rta = rta_part::<20>
            })],
        ),
        asked_of_both(
            meeting_twins("a part just past 2^22", 68_000, 100_000, 1, 0),
            &[("keeps RTA's part in 22 bits", |program| {
                program.rta = rta_part::<22>
            })],
        ),
        asked_of_both(
            meeting_twins("a part just past 2^24", 275_000, MOST, 1, 0),
            &[("keeps RTA's part in 24 bits", |program| {
                program.rta = rta_part::<24>
            })],
        ),
        asked_of_both(
            meeting_twins("a part just past 2^25", 542_134, MOST, 1, 0),
            &[("keeps RTA's part in 25 bits", |program| {
                program.rta = rta_part::<25>
            })],
        ),
    ]
}

/// A row that meets another in a window that passes 2^20 with the other's bound.
fn windows() -> Vec<Far> {
    let rows = [100_000, MOST, MOST].repeat(2);
    let met = one_row("a window past 2^20", &rows, 1, 1, &[MOST; 2], 0, 200_000);
    let slip: Slip = ("keeps the window of W in 20 bits", |program| {
        program.work = work_reach::<20>
    });
    vec![asked_of_both(met, &[slip])]
}

/// 63 middling rows and a small one by an engine: large sums.
fn crowd_by(engine: Entry) -> Far {
    let crowd = twins_and_one(63, [600_000, MOST, MOST], [1, MOST, MOST]);
    let bounds = [vec![MOST; 63], vec![945_001]].concat();
    asked_of_one(
        refined(
            "63 middling rows and a small one",
            engine,
            &crowd,
            40,
            1 << 63,
            &bounds,
        ),
        &[("keeps RTA's sum in 25 bits", |program| {
            program.rta = quick_rta_sum::<25>
        })],
    )
}

/// A huge period and a tiny one by an engine.
fn uneven_by(engine: Entry) -> Far {
    let uneven = [400_000, MOST, MOST, 1, 2, 2];
    asked_of_both(
        refined(
            "a huge period and a tiny one",
            engine,
            &uneven,
            1,
            3,
            &[800_000, 1],
        ),
        &[("keeps the periods of W in 18 bits", |program| {
            program.work = work_quotient::<18>
        })],
    )
}

/// A pair that takes 5,003 passes at once, by an engine.
fn pair_by(engine: Entry) -> Far {
    let pair = words_of(&climbing_pair(5_001));
    asked_of_both(
        refined(
            "a pair that takes 5,003 passes",
            engine,
            &pair,
            1,
            3,
            &[10_001, 15_003],
        ),
        &[
            ("stops after 1,000 passes", |program| {
                program.refined = passes::<1_000>
            }),
            ("stops after 2,000 passes", |program| {
                program.refined = passes::<2_000>
            }),
            ("stops after 5,000 passes", |program| {
                program.refined = passes::<5_000>
            }),
        ],
    )
}

/// Every case far out, and those of the density test.
pub fn cases() -> Vec<Far> {
    let by_engine = |engine| vec![crowd_by(engine), uneven_by(engine), pair_by(engine)];
    [
        misses(),
        busy_lengths(),
        sums(),
        windows(),
        by_engine(Entry::RefineRounds),
        by_engine(Entry::RefineAtOnce),
        hinges::cases(),
    ]
    .into_iter()
    .flatten()
    .collect()
}

/// The case with its rows in columns, but for the rounds engine, which takes seconds.
fn in_columns(far: &Far) -> Option<Case> {
    let is_quick = far.case.call.entry != Entry::RefineRounds;
    is_quick.then(|| far.case.in_columns()).flatten()
}

/// The cases that one of the programs answers otherwise, the proved one with rows in triples or in columns.
pub fn wrong_cases(seed: u64) -> Vec<String> {
    let asked = |case: &Case| case.proved_wrong(&mut Random::of([seed]));
    let wrong = |far: &Far| {
        let columns = in_columns(far).and_then(|case| asked(&case));
        let second = far.second_asked.then(|| far.case.second_wrong(&DOCUMENT));
        [asked(&far.case), columns, second.flatten()]
    };
    let found = of_each(&cases(), wrong);
    found.into_iter().flatten().flatten().collect()
}
