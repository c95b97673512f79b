//! The cases of a visit in marking by reversal: the five of source document 000, as it numbers them, which are those of a
//! pair, and that of a point (02, S-8); and what a marker tells of its visits.

/// The case of a visit, told by the mark after 1 was added and by the state of the next link: the left one at the first
/// visit of a pair, the right one at the second. A point has no link, and one visit.
#[derive(Clone, Copy, Debug, PartialEq, Eq, PartialOrd, Ord)]
pub enum Case {
    /// Mark 3: back to the predecessor.
    Retreat = 1,
    /// Mark 1, the next link is unmarked: to the left cell.
    FollowLeft = 2,
    /// Mark 1, the next link is marked or nil: the cell stays in hand.
    PassLeft = 3,
    /// Mark 2, the next link is unmarked: to the right cell.
    FollowRight = 4,
    /// Mark 2, the next link is marked or nil: the cell stays in hand.
    PassRight = 5,
    /// A point: it is marked, and back to the predecessor.
    Point = 6,
}

/// All cases, in the order of their numbers.
pub const CASES: [Case; 6] =
    [Case::Retreat, Case::FollowLeft, Case::PassLeft, Case::FollowRight, Case::PassRight, Case::Point];

/// What marking by reversal did on a pool.
#[derive(Clone, Debug, Default, PartialEq, Eq)]
pub struct Marking {
    /// How often each case came, case 1 first, and that of a point last.
    pub times: [u32; CASES.len()],
    /// How many runs began, each at the cell of a register.
    pub runs: u32,
    /// The case of every visit, in order.
    pub cases: Vec<Case>,
    /// The cells that cases 2 and 4 went to, in order.
    pub entered: Vec<u32>,
}
