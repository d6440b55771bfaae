//! The kinds of sheets.

use crate::{balanced, ends, shapes, slow};
use second::random::Random;
use second::rows::Sheet;

/// A kind of sheet, named by what it is rich in.
#[derive(Clone, Copy, PartialEq, Eq, Debug)]
pub enum Kind {
    /// One to four rows of numbers up to 6, dense in twins and in equalities C = D, D = T, T = 1.
    Tiny,
    /// Two to twelve rows of numbers up to 60.
    Middle,
    /// Numbers, rows and processors at the limits of the sizes allowed.
    Edges,
    /// About 64 rows of small cost.
    Light,
    /// About 64 rows of cost near their deadline.
    Heavy,
    /// Utilisation drawn from an exponential distribution, as in the papers' experiment.
    Exponential,
    /// Rows whose bounds fall by small steps over many passes.
    Climbing,
    /// Rows that fill one processor exactly or nearly.
    Full,
    /// A few rows of large numbers, for lengths up to the largest horizon.
    Far,
    /// 0, 1, 63, 64, 65, 66, 128 or 255 rows.
    Counts,
    /// The families that keep a plain method busy for long, at small sizes, with twins and small changes.
    Slow,
    /// A few rows of large numbers of all sorts, refined in few passes.
    Large,
    /// 49 to 64 rows of which only late ones are not marked.
    Late,
    /// Rows whose costs come to just past a power of two.
    Brimming,
    /// Many rows of large middling costs.
    Crowd,
    /// Tiny and huge periods beside each other.
    Uneven,
    /// Utilisation close to 1, by tiny periods and two long ones: late misses and long busy lengths.
    Close,
    /// Densities that come to the density test's limit, or miss it by a few billionths on either side.
    Balanced,
}

/// Every kind.
pub const KINDS: [Kind; 18] = [
    Kind::Tiny,
    Kind::Middle,
    Kind::Edges,
    Kind::Light,
    Kind::Heavy,
    Kind::Exponential,
    Kind::Climbing,
    Kind::Full,
    Kind::Far,
    Kind::Counts,
    Kind::Slow,
    Kind::Large,
    Kind::Late,
    Kind::Brimming,
    Kind::Crowd,
    Kind::Uneven,
    Kind::Close,
    Kind::Balanced,
];

/// A random sheet of a kind.
pub fn sheet(kind: Kind, random: &mut Random) -> Sheet {
    match kind {
        Kind::Tiny => shapes::tiny(random),
        Kind::Middle => shapes::middle(random),
        Kind::Edges => shapes::edges(random),
        Kind::Light => shapes::light(random),
        Kind::Heavy => shapes::heavy(random),
        Kind::Exponential => shapes::exponential(random),
        Kind::Climbing => shapes::climbing(random),
        Kind::Full => shapes::full(random),
        Kind::Far => shapes::far(random),
        Kind::Counts => shapes::counts(random),
        Kind::Slow => slow::slow(random),
        Kind::Large => slow::large(random),
        Kind::Late => ends::late(random),
        Kind::Brimming => ends::brimming(random),
        Kind::Crowd => ends::crowd(random),
        Kind::Uneven => ends::uneven(random),
        Kind::Close => ends::close(random),
        Kind::Balanced => balanced::balanced(random),
    }
}
