//! The marker: what no code of ours has.

/// Where the first marker of a code is: the place of its FF, counted from 0.
/// The byte after that is 90 or more (hexadecimal).
///
/// No band is written with a marker. A code that has one is of another kind,
/// and [`Refusal::Marker`](crate::Refusal::Marker) says so.
///
/// ```
/// use siftpebble::first_marker;
///
/// assert_eq!(first_marker(&[0x58, 0xDE, 0xFF, 0x90]), Some(2));
/// assert_eq!(first_marker(&[0x58, 0xDE, 0xFF, 0x8F]), None);
/// assert_eq!(first_marker(&[0x90, 0xFF]), None);
/// ```
pub fn first_marker(code: &[u8]) -> Option<usize> {
    let mut pairs = code.windows(2);
    pairs.position(|pair| pair[0] == 0xFF && pair[1] >= 0x90)
}
