//! The lines of a script, as the port's irscript prints them.

use crate::field::{Field, MOST_BYTES, fields};
use crate::node::{Node, Row};
use crate::session::{Close, Session};

/// Whether pliron itself answers a row; else the port adds it.
pub fn is_plirons(row: Row) -> bool {
    matches!(row.0, 6 | 9 | 10 | 12 | 13)
}

/// The digits of the numbers from 00 to 99.
const PAIRS: &[u8; 200] = b"\
    0001020304050607080910111213141516171819202122232425262728293031323334353637383940414243444546474849\
    5051525354555657585960616263646566676869707172737475767778798081828384858687888990919293949596979899";

/// Writes a number in decimal digits, two at a time.
fn write_number(out: &mut Vec<u8>, number: usize) {
    let mut digits = [0; 20];
    let mut start = digits.len();
    let mut rest = number;
    while rest >= 10 {
        let pair = rest % 100 * 2;
        rest /= 100;
        start -= 2;
        digits[start..start + 2].copy_from_slice(&PAIRS[pair..pair + 2]);
    }
    // A pair may leave nothing before it.
    if rest > 0 || number == 0 {
        start -= 1;
        digits[start] = b'0' + rest as u8;
    }
    out.extend_from_slice(&digits[start..]);
}

impl Session {
    /// Writes the line of a field that was run.
    pub fn write_line(&self, out: &mut Vec<u8>, place: usize, answer: Result<Close, Row>) {
        write_number(out, place);
        match answer {
            Err(Row(row)) => {
                out.extend_from_slice(b" refused ");
                write_number(out, usize::from(row));
            }
            Ok(close) => {
                out.extend_from_slice(b" ok");
                self.write_shown(out);
                out.extend_from_slice(match close {
                    Close::Nothing => b"",
                    Close::None => b" none",
                    Close::End => b" end",
                    Close::Break => b" break",
                });
            }
        }
        out.push(b'\n');
    }

    /// Writes the nodes that the last field made or showed, each after a space.
    fn write_shown(&self, out: &mut Vec<u8>) {
        for node in &self.shown {
            let (letter, number) = match node {
                Node::Operation(op) => (b" o", self.ops.of(*op)),
                Node::Block(block) => (b" b", self.blocks.of(*block)),
                Node::Region(region) => (b" r", self.regions.of(*region)),
            };
            out.extend_from_slice(letter);
            write_number(out, usize::from(number));
        }
    }
}

/// Runs a script in a session, and gives each field and answer with the session to a reader. None for a script that is too long.
pub fn run_script(
    script: &[u8],
    session: &mut Session,
    mut read: impl FnMut(&Session, &Field, Result<Close, Row>),
) -> Option<()> {
    if script.len() > MOST_BYTES {
        return None;
    }
    for field in fields(script) {
        let answer = session.run(field.whole);
        read(session, &field, answer);
    }
    Some(())
}

/// The lines of a script, without those of rows that the port adds if told so. None for a script that is too long.
pub fn lines(script: &[u8], session: &mut Session, drop_added: bool) -> Option<Vec<u8>> {
    let mut out = Vec::new();
    run_script(script, session, |session, field, answer| {
        if !(drop_added && answer.is_err_and(|row| !is_plirons(row))) {
            session.write_line(&mut out, field.place, answer);
        }
    })?;
    Some(out)
}
