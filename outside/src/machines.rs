//! The matrices of both machines, in the shape of document 01: for each event its transitions, from and to.

/// Transitions of an event.
type Row = &'static [[u8; 2]];

/// Authorization machine, events 1 to 8.
pub const AUTHORIZATION: [Row; 8] = [
    &[*b"AB"],
    &[*b"BE", *b"DE"],
    &[*b"BF", *b"DF"],
    &[*b"BC", *b"DC"],
    &[*b"BB", *b"DD", *b"EA"],
    &[*b"CD"],
    &[*b"CD", *b"DD"],
    &[*b"CD"],
];

/// TEK machine, events 1 to 9.
pub const TEK: [Row; 9] = [
    &[*b"BA", *b"CA", *b"DA", *b"EA", *b"FA"],
    &[*b"AB"],
    &[*b"BC", *b"EF"],
    &[*b"CB", *b"FE"],
    &[*b"DB", *b"EB", *b"FC"],
    &[*b"BB", *b"EE"],
    &[*b"DE"],
    &[*b"BD", *b"ED"],
    &[*b"BA", *b"EA"],
];

/// The next state, none for a blank. Events count from 1.
pub fn next(matrix: &[Row], event: usize, state: u8) -> Option<u8> {
    let row = matrix[event - 1];
    row.iter().find(|t| t[0] == state).map(|t| t[1])
}

#[cfg(test)]
mod tests {
    use super::*;

    #[test]
    fn edges() {
        assert_eq!(next(&AUTHORIZATION, 7, b'C'), Some(b'D'));
        assert_eq!(next(&TEK, 8, b'D'), None);
        assert_eq!(next(&TEK, 5, b'F'), Some(b'C'));
        assert_eq!(AUTHORIZATION.iter().map(|r| r.len()).sum::<usize>(), 14);
        assert_eq!(TEK.iter().map(|r| r.len()).sum::<usize>(), 20);
    }
}
