//! A ray: many sweeps that would lower the bounds by the same amounts, made as one move.

use super::Asked;

/// Along a ray, what another row adds is at most a line: its value at the first move, its fall with each further move, and how
/// many further moves it lasts.
#[derive(Clone, Copy)]
struct Line {
    value: u32,
    fall: u32,
    lasts: u32,
}

/// The lower of two lines at the first move; where they are equal, the one that falls faster.
fn lower_of(one: Line, other: Line) -> Line {
    if (other.value, u32::MAX - other.fall) < (one.value, u32::MAX - one.fall) {
        other
    } else {
        one
    }
}

/// The line of another row's share in a window, while its bound falls: the carried part falls with it as long as it lasts.
fn share_line(row: &[u32], bound: u32, drop: u32, window: u32) -> Line {
    let (cost, deadline, period) = (row[0], row[1], row[2]);
    let periods = window / period;
    let carried = (window - periods * period).saturating_sub(deadline - bound);
    let value = periods * cost + carried.min(cost);
    if drop > 0 && 0 < carried && carried <= cost {
        Line {
            value,
            fall: drop,
            lasts: carried / drop,
        }
    } else {
        Line {
            value,
            fall: 0,
            lasts: u32::MAX,
        }
    }
}

/// The line of another row's work over a reach that falls: whole periods fall with each move, and the rest as long as the part
/// of a period that has begun lasts.
fn work_line(row: &[u32], reach: u32, drop: u32) -> Line {
    let (cost, period) = (row[0], row[2]);
    let (periods, dropped) = (reach / period, drop / period);
    let (into, rest) = (reach - periods * period, drop - dropped * period);
    let value = periods * cost + into.min(cost);
    if rest > 0 && into <= cost {
        Line {
            value,
            fall: dropped * cost + rest,
            lasts: into / rest,
        }
    } else {
        Line {
            value,
            fall: dropped * cost,
            lasts: u32::MAX,
        }
    }
}

/// A row's own first move along a ray: its deadline window, the value it comes to, its drop, and the line of its cap.
struct Move {
    window: u32,
    tried: u32,
    drop: u32,
    capped: Line,
}

/// The cap of a row's move: by BCL it is the same for every value, by RTA it falls with the value.
fn cap_line(method: u32, cost: u32, window: u32, tried: u32, drop: u32) -> Line {
    let (value, fall) = if method == 0 {
        (window - cost + 1, 0)
    } else {
        (tried - cost + 1, drop)
    };
    Line {
        value,
        fall,
        lasts: u32::MAX,
    }
}

/// The line of what another row adds to a row's move.
fn line_of(own: &Move, method: u32, row: &[u32], bound: u32, drop: u32) -> Line {
    let line = lower_of(own.capped, share_line(row, bound, drop, own.window));
    if method == 0 {
        return line;
    }
    let reach = own.tried + bound - row[0];
    lower_of(line, work_line(row, reach, own.drop + drop))
}

/// The sum of what the other rows add to the move of the row at a place.
fn sum_line(asked: Asked, place: usize, own: &Move, bounds: &[u32], drops: &[u32]) -> Line {
    let mut sum = Line {
        value: 0,
        fall: 0,
        lasts: u32::MAX,
    };
    for (other, row) in asked.words.chunks_exact(3).enumerate() {
        if other != place {
            let line = line_of(own, asked.method, row, bounds[other], drops[other]);
            sum.value += line.value;
            sum.fall += line.fall;
            sum.lasts = sum.lasts.min(line.lasts);
        }
    }
    sum
}

/// How many moves along the ray a row's own check passes, with each row's bound as it is now before the first.
fn reach(asked: Asked, place: usize, bounds: &[u32], drops: &[u32]) -> u32 {
    let (cost, window) = (asked.words[3 * place], asked.words[3 * place + 1]);
    let (above, drop) = (bounds[place] - cost, drops[place]);
    if above < drop {
        return 0;
    }
    let tried = bounds[place] - drop;
    let own = Move {
        window,
        tried,
        drop,
        capped: cap_line(asked.method, cost, window, tried, drop),
    };
    let sum = sum_line(asked, place, &own, bounds, drops);
    let (due, due_fall) = (
        asked.processors * (tried - cost + 1),
        asked.processors * drop,
    );
    if sum.value >= due {
        return 0;
    }
    let slack_lasts = if sum.fall < due_fall {
        (due - 1 - sum.value) / (due_fall - sum.fall)
    } else {
        u32::MAX
    };
    slack_lasts.min(sum.lasts).min(above / drop - 1) + 1
}

/// Lowers each row along the ray by one move, in order, and gives the least reach; or the first row whose check fails. Where no
/// row moves, every reach is as good as another.
fn first_move(asked: Asked, bounds: &mut [u32], drops: &[u32]) -> Result<u32, usize> {
    let mut least = u32::MAX;
    for place in 0..bounds.len() {
        if drops[place] > 0 {
            let reached = reach(asked, place, bounds, drops);
            if reached == 0 {
                return Err(place);
            }
            least = least.min(reached);
            bounds[place] -= drops[place];
        }
    }
    Ok(least)
}

/// Lowers the bounds along the ray of the last drops as far as every row's check passes. A row whose check fails at once is
/// left out, and the ray begun again.
pub fn lower(asked: Asked, bounds: &mut [u32], drops: &mut [u32]) {
    for _ in 0..bounds.len() {
        let mut moved = [0; 64];
        let moved = &mut moved[..bounds.len()];
        moved.copy_from_slice(bounds);
        match first_move(asked, moved, drops) {
            Err(place) => drops[place] = 0,
            Ok(moves) => {
                for (bound, drop) in bounds.iter_mut().zip(drops) {
                    *bound -= moves * *drop;
                }
                return;
            }
        }
    }
}
