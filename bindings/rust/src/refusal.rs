//! The numbers by which a call is refused.

use core::error::Error;
use core::fmt;

/// Why a call gave no result. A refused call changes nothing: rows, boxes and sums are as they
/// were.
///
/// Numbers 1 to 5 and 7 come first, the lowest winning, and look only at what was handed in. 8, 9
/// and 10 come as the computation meets them. 6 stands after the count of points and before the
/// first of them. The library's number 11 is about edge files and never comes from a call here.
///
/// ```
/// use juniperreef::{Refusal, Vec3, unit};
///
/// let why = unit(Vec3::ZERO).unwrap_err();
/// assert_eq!(why, Refusal::NotFinite);
/// assert_eq!(why.number(), 9);
/// ```
#[derive(Clone, Copy, Debug, PartialEq, Eq, Hash)]
#[non_exhaustive]
pub enum Refusal {
    /// 1: a number handed in is not finite, or is above 1,048,576 in magnitude. Boxes and sums are
    /// excepted.
    OutOfRange = 1,
    /// 2: a neutral radius, alone or in a development, is not greater than 0.
    NeutralNotPositive = 2,
    /// 3: a piece has an arc and a trace.
    ArcAndTrace = 3,
    /// 4: a box holds a NaN, or sums hold a NaN or an infinity.
    BadBoxOrSums = 4,
    /// 5: a chord is below 0, or a deviation is not above 0.
    BadTolerance = 5,
    /// 6: a row is shorter than three times the points due.
    RowTooShort = 6,
    /// 7: a development's piece is among the paths of a cone whose slope is not 0.
    PieceOnCone = 7,
    /// 8: a finite angle above 1,048,576 in magnitude is due for a sine or cosine.
    AngleTooLarge = 8,
    /// 9: a number that the result depends on is not finite: of a direction of no length, a point
    /// on its axis, a pipe that is missed, or one that is only touched, as by a branch as wide as
    /// its main pipe.
    NotFinite = 9,
    /// 10: a wave turns more than 4,096 times, or a count of chords or pieces is above 4,096.
    CountTooLarge = 10,
}

impl Refusal {
    /// All refusals, by their numbers.
    pub const ALL: [Self; 10] = [
        Self::OutOfRange,
        Self::NeutralNotPositive,
        Self::ArcAndTrace,
        Self::BadBoxOrSums,
        Self::BadTolerance,
        Self::RowTooShort,
        Self::PieceOnCone,
        Self::AngleTooLarge,
        Self::NotFinite,
        Self::CountTooLarge,
    ];

    /// The refusal's number, which is also what the library's C functions answer.
    pub const fn number(self) -> u32 {
        self as u32
    }

    /// The refusal of this number, or none.
    pub fn from_number(number: u32) -> Option<Self> {
        Self::ALL.into_iter().find(|refusal| refusal.number() == number)
    }

    /// What is wrong, and what to do about it.
    const fn sentence(self) -> &'static str {
        match self {
            Self::OutOfRange => {
                "a number handed in is not finite or is above 1,048,576 in magnitude: \
                 give millimetres and radians within that range"
            }
            Self::NeutralNotPositive => {
                "a neutral radius is not greater than 0: \
                 give the radius of the sheet's neutral layer"
            }
            Self::ArcAndTrace => {
                "a piece has both an arc and a trace: take out the one it does not follow"
            }
            Self::BadBoxOrSums => {
                "the box holds a NaN, or the sums hold a NaN or an infinity: \
                 start from Bounds::EMPTY or Integrals::default()"
            }
            Self::BadTolerance => {
                "a chord is below 0 or a deviation is not above 0: give a tolerance in millimetres"
            }
            Self::RowTooShort => {
                "the row is shorter than three times the points due: \
                 lend a longer one, or ask for a Vec"
            }
            Self::PieceOnCone => {
                "a development's piece is among the paths of a cone whose slope is not 0: \
                 give pieces to cylinders only"
            }
            Self::AngleTooLarge => {
                "an angle above 1,048,576 radians is due for a sine: \
                 bring angles and lengths along the sheet within a few turns"
            }
            Self::NotFinite => {
                "a number that the result depends on is not finite: \
                 look for a direction of no length, a point on its axis, a pipe that is missed, \
                 or a pipe that is only touched, as by a branch as wide as its main pipe"
            }
            Self::CountTooLarge => {
                "a wave turns more than 4,096 times, or more than 4,096 chords or pieces are due: \
                 shorten the piece or allow a greater deviation"
            }
        }
    }
}

impl fmt::Display for Refusal {
    fn fmt(&self, f: &mut fmt::Formatter<'_>) -> fmt::Result {
        write!(f, "refusal {}: {}", self.number(), self.sentence())
    }
}

impl Error for Refusal {}
