//! Measures pliron's own code: walks of a full store as the port's bench_walks does them, lookups with more and with fewer symbols
//! as bench_lookups does them, inserts, links and erasings.

use std::hint::black_box;
use std::time::Instant;

use pliron::basic_block::BasicBlock;
use pliron::builtin::op_interfaces::{SymbolOpInterface, SymbolTableInterface};
use pliron::context::{Context, Ptr};
use pliron::dyn_clone::clone_box;
use pliron::graph::walkers::interruptible::immutable::walk_op;
use pliron::graph::walkers::interruptible::walk_advance;
use pliron::graph::walkers::{IRNode, WALKCONFIG_PREORDER_FORWARD};
use pliron::identifier::Identifier;
use pliron::op::{concrete_op_info, op_cast};
use pliron::operation::Operation;
use pliron::symbol_table::SymbolTable;

/// How many operations have a region, each inside the one before; so many have none.
const DEPTH: usize = 256;

/// After how many levels a block is wide, and how many operations without regions stand in it.
const WIDTH: usize = 64;

/// How often a root is walked, and how often all names are looked up.
const TIMES: u64 = 10_000;

fn make(ctx: &mut Context, kind: u8, regions: usize) -> Ptr<Operation> {
    Operation::new(ctx, concrete_op_info(kind), vec![], vec![], vec![], regions)
}

/// An operation of a kind with a region with a block.
fn make_level(ctx: &mut Context, kind: u8) -> (Ptr<Operation>, Ptr<BasicBlock>) {
    let op = make(ctx, kind, 1);
    let block = BasicBlock::new(ctx, None, vec![]);
    let region = op.deref(ctx).get_region(0);
    block.insert_at_back(region, ctx);
    (op, block)
}

fn widen(ctx: &mut Context, block: Ptr<BasicBlock>) {
    for _ in 0..WIDTH {
        make(ctx, 0, 0).insert_at_back(block, ctx);
    }
}

/// 1,024 nodes below one operation.
fn full(ctx: &mut Context) -> Ptr<Operation> {
    let (root, mut block) = make_level(ctx, 0);
    widen(ctx, block);
    for level in 1..DEPTH {
        let (op, inner) = make_level(ctx, 0);
        op.insert_at_back(block, ctx);
        block = inner;
        if level % WIDTH == 0 {
            widen(ctx, block);
        }
    }
    root
}

/// Prints what so many of something took.
fn report(what: &str, start: Instant, many: u64) {
    let spent = start.elapsed();
    let each = spent.as_nanos() as f64 / many as f64;
    println!(
        "{what}: {many} in {:.3} s, {each:.1} ns each",
        spent.as_secs_f64()
    );
}

fn walks(times: u64) {
    let ctx = &mut Context::new();
    let root = full(ctx);
    let mut shown = 0u64;
    let start = Instant::now();
    for _ in 0..times {
        let _ = walk_op::<u64, ()>(
            ctx,
            &mut shown,
            &WALKCONFIG_PREORDER_FORWARD,
            root,
            |_, shown, node: IRNode| {
                *shown += 1;
                black_box(&node);
                walk_advance()
            },
        );
    }
    report("nodes shown by walk_op", start, shown);
}

fn table_of(ctx: &Context, op: Ptr<Operation>) -> Box<dyn SymbolTableInterface> {
    let object = Operation::get_op_dyn(op, ctx);
    op_cast::<dyn SymbolTableInterface>(object.as_ref())
        .map(clone_box)
        .expect("a table")
}

fn symbol_of(ctx: &Context, op: Ptr<Operation>) -> Box<dyn SymbolOpInterface> {
    let object = Operation::get_op_dyn(op, ctx);
    op_cast::<dyn SymbolOpInterface>(object.as_ref())
        .map(clone_box)
        .expect("a symbol")
}

fn tables() {
    let ctx = &mut Context::new();
    let (op, _) = make_level(ctx, 1);
    let mut table = SymbolTable::new(ctx, table_of(ctx, op));
    let names: Vec<Identifier> = (0..256)
        .map(|n| Identifier::try_new(format!("name_{n}")).expect("a name"))
        .collect();
    let symbols: Vec<Ptr<Operation>> = names
        .iter()
        .map(|name| {
            let op = make(ctx, 2, 0);
            symbol_of(ctx, op).set_symbol_name(ctx, name.clone());
            op
        })
        .collect();
    let start = Instant::now();
    for _ in 0..TIMES / 10 {
        for symbol in &symbols {
            table
                .insert(ctx, symbol_of(ctx, *symbol), None)
                .expect("inserted");
        }
        for symbol in &symbols {
            table.remove(ctx, symbol_of(ctx, *symbol)).expect("removed");
        }
    }
    report("inserts and removes", start, TIMES / 10 * 512);
    for symbol in &symbols {
        table
            .insert(ctx, symbol_of(ctx, *symbol), None)
            .expect("inserted");
    }
    let start = Instant::now();
    for _ in 0..TIMES {
        for name in &names {
            black_box(table.lookup(black_box(name)));
        }
    }
    report("lookups", start, TIMES * 256);
}

fn links() {
    let ctx = &mut Context::new();
    let (_, block) = make_level(ctx, 0);
    let ops: Vec<Ptr<Operation>> = (0..256).map(|_| make(ctx, 0, 0)).collect();
    let start = Instant::now();
    for _ in 0..TIMES {
        for op in &ops {
            op.insert_at_back(block, ctx);
        }
        for op in &ops {
            op.unlink(ctx);
        }
    }
    report("links and unlinks", start, TIMES * 512);
}

fn erasings() {
    let ctx = &mut Context::new();
    let start = Instant::now();
    for _ in 0..TIMES / 10 {
        let root = full(ctx);
        Operation::erase(root, ctx);
    }
    report("nodes made, linked and erased", start, TIMES / 10 * 1024);
}

/// How often a name was found, and how often it was not.
#[derive(Default)]
struct Count {
    found: u64,
    absent: u64,
}

impl Count {
    fn look(&mut self, table: &SymbolTable, name: &Identifier) {
        match table.lookup(name) {
            Some(_) => self.found += 1,
            None => self.absent += 1,
        }
    }
}

/// Three tables of which two have so many symbols in all, and the third has one of another name; each name is looked up in its table, or if
/// told so in the third one. Names are given as bytes, or are ready identifiers.
fn lookups(mappings: usize, rounds: usize, absent: bool, ready: bool) {
    let ctx = &mut Context::new();
    let mut tables: Vec<SymbolTable> = (0..3)
        .map(|_| {
            let (op, _) = make_level(ctx, 1);
            SymbolTable::new(ctx, table_of(ctx, op))
        })
        .collect();
    let bytes: Vec<[u8; 8]> = (0..mappings)
        .map(|symbol| {
            format!("name_{:03}", symbol / 2)
                .as_bytes()
                .try_into()
                .expect("eight")
        })
        .collect();
    let name_of = |bytes: &[u8; 8]| {
        let text = std::str::from_utf8(bytes).expect("a text");
        Identifier::try_new(text.to_string()).expect("a name")
    };
    let names: Vec<Identifier> = bytes.iter().map(name_of).collect();
    let mut add = |table: usize, name: &Identifier| {
        let op = make(ctx, 2, 0);
        symbol_of(ctx, op).set_symbol_name(ctx, name.clone());
        tables[table]
            .insert(ctx, symbol_of(ctx, op), None)
            .expect("inserted");
    };
    for symbol in 0..mappings {
        add(symbol % 2, &names[symbol]);
    }
    add(2, &name_of(b"name_999"));
    let mut count = Count::default();
    for _ in 0..rounds {
        for symbol in 0..mappings {
            let table = &tables[if absent { 2 } else { symbol % 2 }];
            if ready {
                count.look(table, black_box(&names[symbol]));
            } else {
                count.look(table, &name_of(black_box(&bytes[symbol])));
            }
        }
    }
    println!("{} found, {} absent", count.found, count.absent);
}

fn main() {
    let words: Vec<String> = std::env::args().skip(1).collect();
    let has = |option: &str| words.iter().any(|word| word == option);
    let number = |at: usize| words.get(at).and_then(|word| word.parse::<usize>().ok());
    match (words.first().map(String::as_str), number(1), number(2)) {
        (Some("walks"), Some(times), _) => walks(times as u64),
        (Some("lookups"), Some(mappings), Some(rounds)) => {
            lookups(mappings, rounds, has("--absent"), has("--ready"));
        }
        (None, ..) => {
            walks(TIMES);
            tables();
            links();
            erasings();
        }
        _ => eprintln!(
            "usage: bench, bench walks TIMES or bench lookups SYMBOLS ROUNDS [--absent] [--ready]"
        ),
    }
}
