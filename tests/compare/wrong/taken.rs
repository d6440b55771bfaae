//! Slips in taking a call in: numbers and lengths of which only the lowest bits are seen.

use super::narrow::cut;
use super::Slip;
use second::call::{Call, Step};

/// The slips in numbers that one entry or some take: what a wrong program does, and the part that is exchanged.
pub fn slips() -> Vec<Slip> {
    let lists: [&[Slip]; 6] = [
        &kept_in!("the bounds", taken, bounds, [20, 24, 28, 31]),
        &kept_in!("the row number", taken, row_number, [16, 20, 24, 28, 31]),
        &kept_in!("the horizon", taken, horizon, [24, 25, 28, 31]),
        &kept_in!("the processors", taken, processors, [16, 20, 24, 28, 31]),
        &kept_in!("the method", taken, method, [16, 20, 24, 28, 31]),
        &kept_in!("the bounds' length", taken, bounds_length, [8, 16, 24, 32]),
    ];
    lists.concat()
}

/// The slips that every entry with words must show by itself.
pub fn in_words() -> Vec<Slip> {
    let lists: [&[Slip]; 3] = [
        &kept_in!("the words", taken, words, [20, 31]),
        &kept_in!("the row count", taken, row_count, [8, 16]),
        &kept_in!("the words' length", taken, words_length, [16, 32]),
    ];
    lists.concat()
}

/// The slips that every entry with columns must show by itself.
pub fn in_columns() -> Vec<Slip> {
    let lists: [&[Slip]; 2] = [
        &kept_in!("the columns' words", taken, column_words, [20, 31]),
        &kept_in!("the columns' row count", taken, column_rows, [8, 16]),
    ];
    lists.concat()
}

/// The slips in the lengths of columns.
pub fn in_lengths() -> Vec<Slip> {
    let lists: [&[Slip]; 3] = [
        &kept_in!("the costs' length", taken, costs_length, [8, 16, 32]),
        &kept_in!(
            "the deadlines' length",
            taken,
            deadlines_length,
            [8, 16, 32]
        ),
        &kept_in!("the periods' length", taken, periods_length, [8, 16, 32]),
    ];
    lists.concat()
}

/// The slips that every entry with a text must show by itself.
pub fn in_text() -> Vec<Slip> {
    let list: &[Slip] = &kept_in!("the text's length", taken, text_length, [16, 24, 32]);
    list.to_vec()
}

/// The slips that every entry with an output must show by itself.
pub fn in_room() -> Vec<Slip> {
    let list: &[Slip] = &kept_in!("the room", taken, room, [16, 24, 32]);
    list.to_vec()
}

/// A word's lowest bits.
fn cut_word<const BITS: u32>(word: u32) -> u32 {
    cut::<BITS>(word as u64) as u32
}

/// Elements and what is lent behind them, seen with their length cut: those that are left, and what is left behind them.
fn cut_list<T: Clone, const BITS: u32>(elements: &[T], behind: usize) -> (Vec<T>, usize) {
    shorter(
        elements,
        behind,
        cut::<BITS>((elements.len() + behind) as u64) as usize,
    )
}

/// Elements and what is lent behind them up to a length.
fn shorter<T: Clone>(elements: &[T], behind: usize, length: usize) -> (Vec<T>, usize) {
    let kept = elements.len().min(length);
    (elements[..kept].to_vec(), (length - kept).min(behind))
}

/// The call with its words cut.
fn words<const BITS: u32>(call: &Call) -> Call {
    let words = call.words.iter().map(|&word| cut_word::<BITS>(word));
    Call {
        words: words.collect(),
        ..call.clone()
    }
}

/// The call with its bounds cut.
fn bounds<const BITS: u32>(call: &Call) -> Call {
    let bounds = call.bounds.iter().map(|&bound| cut_word::<BITS>(bound));
    Call {
        bounds: bounds.collect(),
        ..call.clone()
    }
}

/// The call with its row number cut.
fn row_number<const BITS: u32>(call: &Call) -> Call {
    Call {
        row: cut_word::<BITS>(call.row),
        ..call.clone()
    }
}

/// The call with its horizon cut.
fn horizon<const BITS: u32>(call: &Call) -> Call {
    Call {
        horizon: cut_word::<BITS>(call.horizon),
        ..call.clone()
    }
}

/// The call with its processors cut.
fn processors<const BITS: u32>(call: &Call) -> Call {
    Call {
        processors: cut_word::<BITS>(call.processors),
        ..call.clone()
    }
}

/// The call with its method cut.
fn method<const BITS: u32>(call: &Call) -> Call {
    Call {
        method: cut_word::<BITS>(call.method),
        ..call.clone()
    }
}

/// The call with its row count cut; words that are not whole rows stay as they are.
fn row_count<const BITS: u32>(call: &Call) -> Call {
    let mut taken = call.clone();
    if call.word_count() % 3 == 0 {
        let length = 3 * cut::<BITS>(call.word_count() as u64 / 3) as usize;
        (taken.words, taken.behind.words) = shorter(&call.words, call.behind.words, length);
    }
    taken
}

/// The call with the length of its words cut.
fn words_length<const BITS: u32>(call: &Call) -> Call {
    let mut taken = call.clone();
    (taken.words, taken.behind.words) = cut_list::<_, BITS>(&call.words, call.behind.words);
    taken
}

/// The call with the words of its columns cut.
fn column_words<const BITS: u32>(call: &Call) -> Call {
    let mut taken = call.clone();
    for word in taken.columns.iter_mut().flatten() {
        *word = cut_word::<BITS>(*word);
    }
    taken
}

/// The call with the length of one of its columns cut.
fn column_length<const BITS: u32>(mut taken: Call, list: usize) -> Call {
    let (column, behind) = (&mut taken.columns[list], &mut taken.behind.columns[list]);
    (*column, *behind) = cut_list::<_, BITS>(column, *behind);
    taken
}

/// The call with the length of its costs cut.
fn costs_length<const BITS: u32>(call: &Call) -> Call {
    column_length::<BITS>(call.clone(), 0)
}

/// The call with the length of its deadlines cut.
fn deadlines_length<const BITS: u32>(call: &Call) -> Call {
    column_length::<BITS>(call.clone(), 1)
}

/// The call with the length of its periods cut.
fn periods_length<const BITS: u32>(call: &Call) -> Call {
    column_length::<BITS>(call.clone(), 2)
}

/// The call with the row count of its columns cut; columns that are not of one length stay as they are.
fn column_rows<const BITS: u32>(call: &Call) -> Call {
    let [costs, deadlines, periods] = call.column_lengths();
    if costs != deadlines || deadlines != periods {
        return call.clone();
    }
    (0..3).fold(call.clone(), column_length::<BITS>)
}

/// The call with the length of its bounds cut.
fn bounds_length<const BITS: u32>(call: &Call) -> Call {
    let mut taken = call.clone();
    (taken.bounds, taken.behind.bounds) = cut_list::<_, BITS>(&call.bounds, call.behind.bounds);
    taken
}

/// The call with the length of its text cut.
fn text_length<const BITS: u32>(call: &Call) -> Call {
    let mut taken = call.clone();
    (taken.text, taken.behind.text) = cut_list::<_, BITS>(&call.text, call.behind.text);
    taken
}

/// The call with its room cut.
fn room<const BITS: u32>(call: &Call) -> Call {
    let cut_room = |room: usize| cut::<BITS>(room as u64) as usize;
    let cut_step = |&step: &Step| match step {
        Step::End(room) => Step::End(cut_room(room)),
        piece => piece,
    };
    Call {
        room: cut_room(call.room),
        steps: call.steps.iter().map(cut_step).collect(),
        ..call.clone()
    }
}
