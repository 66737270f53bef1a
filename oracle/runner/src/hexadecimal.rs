//! Hexadecimal text: digits in pairs, with white space, commas and comments between the pairs.

/// The bytes that a text means, or the line where it goes wrong and why.
pub fn decode(text: &[u8]) -> Result<Vec<u8>, String> {
    let mut bytes = Vec::new();
    let mut at = 0;
    while at < text.len() {
        match (text[at], digit(text[at])) {
            (b' ' | b'\t' | b'\r' | b'\n' | b',', _) => at += 1,
            (b'#', _) => {
                at += text[at..]
                    .iter()
                    .position(|byte| *byte == b'\n')
                    .unwrap_or(text.len() - at)
            }
            (_, Some(high)) => match text.get(at + 1).and_then(|byte| digit(*byte)) {
                Some(low) => {
                    bytes.push(high * 16 + low);
                    at += 2;
                }
                None => return Err(wrong(text, at, "a digit alone, where two make a byte")),
            },
            _ => return Err(wrong(text, at, "not a hexadecimal digit")),
        }
    }
    Ok(bytes)
}

fn digit(byte: u8) -> Option<u8> {
    (byte as char).to_digit(16).map(|value| value as u8)
}

fn wrong(text: &[u8], at: usize, why: &str) -> String {
    format!(
        "line {}: {why}",
        text[..at].iter().filter(|byte| **byte == b'\n').count() + 1
    )
}
