//! The refusal numbers.

/// The refusals, each with its number: 1 to 12 are in document 01's table, 15
/// is request E4's.
#[derive(Clone, Copy, Debug, PartialEq, Eq)]
pub enum Refusal {
    Key = 1,
    NoPage = 2,
    PageOpen = 3,
    PagesFull = 4,
    PlacesFull = 5,
    Size = 6,
    Direction = 7,
    Padding = 8,
    NoRoom = 9,
    Damaged = 10,
    NoTable = 11,
    Unlawful = 12,
    Marker = 15,
}
