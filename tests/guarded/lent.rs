//! Lent memory between guards.

use crate::wide::Wide;
use second::random::Random;

/// How many elements guard each side.
const GUARD: usize = 8;

/// How many elements of an output are held and looked at; no answer is longer. Behind them nothing can be written.
const HELD: usize = 8_192;

/// An element of lent memory, drawn from random bits where it guards.
pub trait Element: Copy + PartialEq {
    /// The element that some bits give.
    fn of(bits: u64) -> Self;
}

impl Element for u8 {
    fn of(bits: u64) -> u8 {
        bits as u8
    }
}

impl Element for u32 {
    fn of(bits: u64) -> u32 {
        bits as u32
    }
}

/// Where lent memory lies: all of it in a list, or its front only.
enum Place<T> {
    List(Vec<T>),
    Wide(Wide<T>),
}

impl<T: Element> Place<T> {
    /// All elements that are held.
    fn held(&self) -> &[T] {
        match self {
            Place::List(all) => all,
            Place::Wide(wide) => wide.front(),
        }
    }

    /// Where the held elements begin.
    fn start(&mut self) -> *mut T {
        match self {
            Place::List(all) => all.as_mut_ptr(),
            Place::Wide(wide) => wide.start(),
        }
    }
}

/// Memory lent to a call: what it holds between two guards of random elements, and a copy of all of it from before the call. Where
/// elements of 0 are lent behind what it holds, those stand in the place of the second guard.
pub struct Lent<T> {
    place: Place<T>,
    before: Vec<T>,
    contents: usize,
    behind: usize,
    as_null: bool,
}

impl<T: Element> Lent<T> {
    /// Lends these contents, with so many elements of 0 behind them. The guards differ from call to call, so that an answer that
    /// hangs on them is seen as well.
    pub fn new(contents: &[T], behind: usize, random: &mut Random) -> Lent<T> {
        let mut guard = || -> Vec<T> { (0..GUARD).map(|_| T::of(random.bits())).collect() };
        let place = match behind {
            0 => Place::List([guard(), contents.to_vec(), guard()].concat()),
            _ => Place::Wide(Wide::new(&[guard(), contents.to_vec()].concat(), behind)),
        };
        Lent {
            before: place.held().to_vec(),
            place,
            contents: contents.len(),
            behind,
            as_null: contents.is_empty() && behind == 0 && random.once_in(2),
        }
    }

    /// Lends an output of so many elements, random ones as far as they are held.
    pub fn room(room: usize, random: &mut Random) -> Lent<T> {
        let held = room.min(HELD);
        let contents: Vec<T> = (0..held).map(|_| T::of(random.bits())).collect();
        Lent::new(&contents, room - held, random)
    }

    /// Where the contents begin, and how many elements are lent; no elements are lent by the null pointer every other time.
    pub fn pointer_and_length(&mut self) -> (*mut T, usize) {
        let pointer = if self.as_null {
            std::ptr::null_mut()
        } else {
            self.place.start().wrapping_add(GUARD)
        };
        (pointer, self.contents + self.behind)
    }

    /// The contents as they were.
    pub fn old(&self) -> &[T] {
        &self.before[GUARD..GUARD + self.contents]
    }

    /// The contents as they are now.
    pub fn now(&self) -> &[T] {
        &self.place.held()[GUARD..GUARD + self.contents]
    }

    /// Whether both guards are as they were.
    pub fn guards_kept(&self) -> bool {
        let (now, end) = (self.place.held(), GUARD + self.contents);
        now[..GUARD] == self.before[..GUARD] && now[end..] == self.before[end..]
    }

    /// Whether everything is as it was, contents and guards.
    pub fn kept(&self) -> bool {
        self.place.held() == self.before
    }
}
