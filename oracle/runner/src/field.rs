//! The fields of a script.

/// The most bytes of a script.
pub const MOST_BYTES: usize = 4096;

/// A field: its place, and its tag and value unless it runs past the script's end.
pub struct Field<'a> {
    pub place: usize,
    pub whole: Option<(u8, &'a [u8])>,
}

/// The fields of a script, in order.
pub fn fields(script: &[u8]) -> Vec<Field<'_>> {
    let mut all = Vec::new();
    let mut place = 0;
    while place < script.len() {
        let rest = &script[place..];
        let whole = match rest {
            [tag, high, low, value @ ..] => {
                let length = usize::from(u16::from_be_bytes([*high, *low]));
                value.get(..length).map(|value| (*tag, value))
            }
            _ => None,
        };
        all.push(Field { place, whole });
        place = whole.map_or(script.len(), |(_, value)| place + 3 + value.len());
    }
    all
}

/// Adds a field to a script.
pub fn push(script: &mut Vec<u8>, tag: u8, value: &[u8]) {
    script.push(tag);
    script.extend_from_slice(&(value.len() as u16).to_be_bytes());
    script.extend_from_slice(value);
}

/// A node number, of two bytes.
pub fn number(value: &[u8], at: usize) -> u16 {
    u16::from_be_bytes([value[at], value[at + 1]])
}
