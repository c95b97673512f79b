//! Why a call is refused: the question of the document that is answered no, and what about it.

use crate::refusal::*;

/// A register that a call names.
#[derive(Clone, Copy, Debug, PartialEq, Eq, PartialOrd, Ord)]
pub enum Name {
    R,
    A,
    B,
}

/// Why a link is not valid: it is above N, or that cell is not used, neither a pair nor a point.
#[derive(Clone, Copy, Debug, PartialEq, Eq, PartialOrd, Ord)]
pub enum Link {
    AboveN,
    NotUsed,
}

/// The place of a number in an image.
#[derive(Clone, Copy, Debug, PartialEq, Eq, PartialOrd, Ord)]
pub enum Place {
    K,
    Register,
    Kind,
    Left,
    Right,
    PairValue,
    X,
    Y,
    PointValue,
}

#[derive(Clone, Copy, Debug, PartialEq, Eq, PartialOrd, Ord)]
pub enum Cause {
    /// The length is below 18.
    Short,
    /// N is 0.
    NoCells,
    /// N is above 4,000.
    ManyCells,
    /// Word 0 is not N.
    WordZero,
    /// More cells are kept than there are.
    Kept,
    /// The register number is 16 or more, and those before it are not.
    Number(Name),
    /// N is too large for the recursive marker.
    TooLarge,
    /// The scratch is too short.
    Scratch,
    /// The register that is read holds no valid link.
    Read(Name, Link),
    /// The pool is not well-formed, by states alone.
    State,
    /// The pool is not well-formed, by registers alone, and by this fault of theirs alone.
    Register(Link),
    /// The same of left links.
    Left(Link),
    /// The same of right links.
    Right(Link),
    /// The pool is not well-formed by more than one of these.
    Several,
    /// The head is above N.
    HeadAboveN,
    /// The head is not free.
    HeadNotFree,
    /// The left of the head is above N.
    LeftOfHead,
    /// The register is nil where a cell is needed.
    Nil,
    /// The cell is of the other kind than the call needs.
    OtherKind,
    /// The link that is read is not valid.
    LinkRead(Link),
    /// No cell is free.
    Full,
    /// The bytes end inside the number.
    Truncated(Place),
    /// The number is 2^32 or more in five groups.
    Wide(Place),
    /// The number has more than five groups.
    Long(Place),
    /// The number has more than one group, and the last one is 0.
    Padded(Place),
    /// The image has more cells than the pool.
    MoreThanN,
    /// The kind is neither that of a pair nor that of a point.
    KindNumber,
    /// The register or link is above the number of the image's cells.
    AboveK(Place),
    /// The output is too short.
    Output,
}

/// The refusal's number.
impl From<Cause> for u32 {
    fn from(cause: Cause) -> u32 {
        use Cause::*;
        match cause {
            Short | NoCells | ManyCells | WordZero | Kept => SIZE,
            Number(_) => REGISTER,
            TooLarge => TOO_LARGE,
            Scratch | Output => NO_ROOM,
            Read(..) | State | Register(_) | Left(_) | Right(_) | Several => MALFORMED,
            HeadAboveN | HeadNotFree | LeftOfHead | LinkRead(_) => MALFORMED,
            Nil => NIL,
            OtherKind => KIND,
            Full => FULL,
            Truncated(_) => TRUNCATED,
            Wide(_) | Long(_) => OUT_OF_RANGE,
            Padded(_) => PADDED,
            MoreThanN => TOO_MANY_CELLS,
            KindNumber => KIND_NUMBER,
            AboveK(_) => LINK_RANGE,
        }
    }
}
