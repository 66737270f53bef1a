//! Writes the scripts of oracle/speed into a folder: each has near 4,096 bytes, and no field is refused.

use std::path::PathBuf;
use std::process::ExitCode;

use runner::field::{MOST_BYTES, push};

/// A script that is being written.
#[derive(Default)]
struct Script {
    bytes: Vec<u8>,
}

impl Script {
    /// Whether so many bytes more fit.
    fn has_room(&self, bytes: usize) -> bool {
        self.bytes.len() + bytes <= MOST_BYTES
    }

    /// A field: a tag, some bytes and some node numbers.
    fn field(&mut self, tag: u8, bytes: &[u8], numbers: &[u16]) {
        let mut value = bytes.to_vec();
        for number in numbers {
            value.extend_from_slice(&number.to_be_bytes());
        }
        push(&mut self.bytes, tag, &value);
    }

    fn make_operation(&mut self, kind: u8, regions: u8, name: &str) {
        self.field(0x01, &[&[kind, regions], name.as_bytes()].concat(), &[]);
    }

    fn make_block(&mut self) {
        self.field(0x02, &[], &[]);
    }

    fn link_operation(&mut self, how: u8, op: u16, target: u16) {
        self.field(0x03, &[how], &[op, target]);
    }

    fn link_block(&mut self, how: u8, block: u16, target: u16) {
        self.field(0x04, &[how], &[block, target]);
    }

    fn insert(&mut self, table: u16, op: u16) {
        let value = [table.to_be_bytes(), op.to_be_bytes(), [0, 0]].concat();
        self.field(0x07, &[&value[..], &[0]].concat(), &[]);
    }

    /// A lookup in a table (tag 0C), or in the table nearest to an operation (0D).
    fn look_up(&mut self, tag: u8, op: u16, name: &str) {
        let value = [&op.to_be_bytes(), name.as_bytes()].concat();
        push(&mut self.bytes, tag, &value);
    }

    fn walk(&mut self, configuration: u8) {
        self.field(0x0E, &[0, 0, 0, configuration, 3, 0, 0, 3, 0, 0], &[]);
    }
}

/// Operations without and with regions, terminators, tables, symbols, and blocks.
fn makings() -> Vec<u8> {
    let mut script = Script::default();
    let mut round = 0;
    while script.has_room(40) {
        if round % 2 == 0 {
            script.make_operation(0, 1, "");
            script.make_operation(1, 1, "");
        } else {
            script.make_operation(0, 0, "");
        }
        script.make_operation(2, 0, &format!("function_{round}"));
        script.make_operation(4, 0, "");
        script.make_block();
        round += 1;
    }
    script.bytes
}

/// Operations linked into four blocks, at the ends and beside others, and unlinked in another order; a block unlinked and linked again.
fn links() -> Vec<u8> {
    const OPS: u16 = 24;
    let mut script = Script::default();
    script.make_operation(0, 1, "");
    for block in 0..4 {
        script.make_block();
        script.link_block(1, block, 0);
    }
    for _ in 0..OPS {
        script.make_operation(0, 0, "");
    }
    while script.has_room(usize::from(OPS) * 13 + 13) {
        for op in 1..=OPS {
            let how = if op <= 4 { 1 } else { (op / 4 % 4) as u8 };
            let target = if how < 2 { op % 4 } else { op - 4 };
            script.link_operation(how, op, target);
        }
        for step in 1..=OPS {
            script.field(0x05, &[], &[step * 7 % OPS + 1]);
        }
        script.field(0x06, &[], &[2]);
        script.link_block(0, 2, 0);
    }
    script.bytes
}

/// A table of 80 symbols; then lookups in it and in the nearest table, of names that are there and that are not, and some symbols
/// taken out and put in again.
fn tables() -> Vec<u8> {
    const SYMBOLS: u16 = 80;
    let mut script = Script::default();
    script.make_operation(1, 1, "");
    for op in 1..=SYMBOLS {
        script.make_operation(2, 0, &format!("name_{op}"));
    }
    for op in 1..=SYMBOLS {
        script.insert(0, op);
    }
    let mut step = 0;
    while script.has_room(80) {
        for _ in 0..4 {
            step += 1;
            let op = step * 7 % SYMBOLS + 1;
            script.look_up(0x0C, 0, &format!("name_{op}"));
        }
        script.look_up(0x0D, step % SYMBOLS + 1, &format!("none_{step}"));
        let op = step * 11 % SYMBOLS + 1;
        script.field(0x08, &[], &[0, op]);
        script.insert(0, op);
    }
    script.bytes
}

/// A tree of as many nodes as leave room for 90 walks of all of it, in each configuration.
fn walks() -> Vec<u8> {
    let mut script = Script::default();
    // Tables, each in the body of another one: three nodes for 13 bytes.
    script.make_operation(1, 1, "");
    for table in 1..128u16 {
        script.make_operation(1, 1, "");
        script.link_operation(1, table, (table - 1) / 2);
    }
    // Operations with four regions: five nodes for 13 bytes.
    for op in 128..160u16 {
        script.make_operation(0, 4, "");
        script.link_operation(0, op, op - 100);
    }
    for op in 160..220u16 {
        script.make_operation(0, 0, "");
        script.link_operation(1, op, op - 150);
    }
    let mut configuration = 0;
    while script.has_room(13) {
        script.walk(configuration % 0x40);
        configuration += 1;
    }
    script.bytes
}

fn main() -> ExitCode {
    let Some(folder) = std::env::args().nth(1).map(PathBuf::from) else {
        eprintln!("usage: speed_scripts FOLDER");
        return ExitCode::FAILURE;
    };
    let scripts = [
        ("makings", makings()),
        ("links", links()),
        ("tables", tables()),
        ("walks", walks()),
    ];
    for (name, bytes) in scripts {
        if let Err(error) = std::fs::write(folder.join(name), bytes) {
            eprintln!("speed_scripts: {name}: {error}");
            return ExitCode::FAILURE;
        }
    }
    ExitCode::SUCCESS
}
