//! Shows a script as hexadecimal text that people can read and irscript --hex can run.

use crate::field::{Field, fields, number};

/// A script, one field to a line, each with what it means.
pub fn show(script: &[u8]) -> String {
    fields(script)
        .iter()
        .map(|field| line(script, field))
        .collect()
}

fn line(script: &[u8], field: &Field) -> String {
    let Some((tag, value)) = field.whole else {
        return format!(
            "{:<46}# {}: cut\n",
            hex(&script[field.place..]),
            field.place
        );
    };
    let digits = if value.is_empty() {
        format!("{tag:02X} {:04X}", value.len())
    } else {
        format!("{tag:02X} {:04X} {}", value.len(), hex(value))
    };
    format!(
        "{digits:<46}# {}: {}\n",
        field.place,
        meaning(tag, value).unwrap_or_else(|| "no such field".into())
    )
}

fn hex(bytes: &[u8]) -> String {
    bytes
        .iter()
        .map(|byte| format!("{byte:02X}"))
        .collect::<Vec<_>>()
        .join(" ")
}

fn text(bytes: &[u8]) -> String {
    format!("\"{}\"", bytes.escape_ascii())
}

/// A kind of node and a number.
fn node(value: &[u8], at: usize) -> String {
    match value[at] {
        kind @ 0..3 => format!(
            "{}{}",
            ["o", "b", "r"][usize::from(kind)],
            number(value, at + 1)
        ),
        3 => "none".into(),
        kind => format!("kind {kind}"),
    }
}

/// What a field means, if its value has the right length.
fn meaning(tag: u8, value: &[u8]) -> Option<String> {
    let n = |at: usize| number(value, at);
    let long = |length: usize| (value.len() == length).then_some(());
    Some(match tag {
        1 => {
            let [kind, regions, name @ ..] = value else {
                return None;
            };
            format!(
                "make an operation of kind {kind}, {regions} regions, name {}",
                text(name)
            )
        }
        2 => long(0).map(|()| "make a block".into())?,
        3 | 4 => long(5).and_then(|()| linking(tag, value))?,
        5 => long(2).map(|()| format!("unlink o{}", n(0)))?,
        6 => long(2).map(|()| format!("unlink b{}", n(0)))?,
        7 => {
            long(7)?;
            let point = point(value[4], n(5))?;
            format!("insert into table o{} the symbol o{}, {point}", n(0), n(2))
        }
        _ => return meaning_of_more(tag, value),
    })
}

/// The same, for tags from 08 on.
fn meaning_of_more(tag: u8, value: &[u8]) -> Option<String> {
    let n = |at: usize| number(value, at);
    let long = |length: usize| (value.len() == length).then_some(());
    Some(match tag {
        8 => long(4).map(|()| format!("remove from table o{} the symbol o{}", n(0), n(2)))?,
        9 => long(4)
            .map(|()| format!("remove from table o{} and erase the symbol o{}", n(0), n(2)))?,
        0x0A => long(2).map(|()| format!("erase o{}", n(0)))?,
        0x0B => long(2).map(|()| format!("erase b{}", n(0)))?,
        0x0C | 0x0D if value.len() >= 2 => {
            let place = if tag == 0x0C {
                "in table"
            } else {
                "in the table nearest to"
            };
            format!("look up {place} o{} {}", n(0), text(&value[2..]))
        }
        0x0E => {
            long(10)?;
            format!(
                "walk from {} in configuration {:02X}, Skip at {}, Break at {}",
                node(value, 0),
                value[3],
                node(value, 4),
                node(value, 7)
            )
        }
        0x0F => long(2).map(|()| format!("walk table o{}", n(0)))?,
        _ => return None,
    })
}

/// What a field links.
fn linking(tag: u8, value: &[u8]) -> Option<String> {
    let (own, container) = if tag == 3 { ("o", "b") } else { ("b", "r") };
    let how = ["front of", "back of", "before", "after"].get(usize::from(value[0]))?;
    let target = if value[0] < 2 { container } else { own };
    let (node, other) = (number(value, 1), number(value, 3));
    Some(format!("link {own}{node} {how} {target}{other}"))
}

/// A point with a code.
fn point(code: u8, node: u16) -> Option<String> {
    Some(match code {
        0 => "without a point".into(),
        1 => "Unset".into(),
        2 => format!("AtBlockStart b{node}"),
        3 => format!("AtBlockEnd b{node}"),
        4 => format!("AfterOperation o{node}"),
        5 => format!("BeforeOperation o{node}"),
        _ => return None,
    })
}
