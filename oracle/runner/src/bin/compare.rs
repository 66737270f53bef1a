//! Compares the lines that the port prints for many scripts with those of pliron's own code.

use std::collections::BTreeMap;
use std::io::{Read, Write};
use std::process::{Command, ExitCode, Stdio};
use std::sync::Mutex;
use std::sync::mpsc::channel;
use std::time::Duration;

use runner::field::{MOST_BYTES, fields};
use runner::line::run_script;
use runner::session::{Mode, Session};
use runner::show::show;
use runner::tally::{Tally, print_counts};
use runner::temperament::{ALL, Temperament};

const USAGE: &str = "usage: compare N [SEED] [--port COMMAND] [--hex] [--without TAGS] [--only TEMPERAMENT] [--from NUMBER] [--jobs J] [--count]
       compare --script NUMBER [SEED] [--without TAGS] [--only TEMPERAMENT]

Writes N scripts from SEED, 1 if none is given, runs each through the port and over pliron's own code, and compares their lines.
Prints how many were the same, and the first that was not: cut down, as text for irscript --hex, with both lines.

  --port COMMAND      what runs the port: it gets a script on standard input; without it only pliron's own code runs
  --hex               the port gets the script as hexadecimal text
  --without TAGS      tags that no script has, such as 09,0F
  --only TEMPERAMENT  Book, Churn, Collide, Walks, Limits, Torn or Mixed
  --from NUMBER       the number of the first script; 0 if none is given
  --jobs J            how many processes of the port run at once; 2 if none is given
  --count             prints how often each row and each tag was met
  --script NUMBER     prints the script with that number and does nothing else
";

#[derive(Default)]
struct Task {
    scripts: u64,
    seed: Option<u64>,
    port: Vec<String>,
    hex: bool,
    without: Vec<u8>,
    only: Option<Temperament>,
    from: u64,
    jobs: u64,
    count: bool,
    print: Option<u64>,
}

fn read_task() -> Result<Task, String> {
    let mut task = Task {
        jobs: 2,
        ..Task::default()
    };
    let mut words = std::env::args().skip(1);
    let mut numbers = Vec::new();
    while let Some(word) = words.next() {
        let mut value = || words.next().ok_or(format!("{word} wants a value"));
        match word.as_str() {
            "--port" => task.port = value()?.split_whitespace().map(String::from).collect(),
            "--hex" => task.hex = true,
            "--without" => task.without = tags(&value()?)?,
            "--only" => task.only = Some(temperament(&value()?)?),
            "--from" => task.from = whole(&value()?)?,
            "--jobs" => task.jobs = whole(&value()?)?.max(1),
            "--count" => task.count = true,
            "--script" => task.print = Some(whole(&value()?)?),
            _ => numbers.push(whole(&word)?),
        }
    }
    if task.print.is_none() {
        task.scripts = *numbers.first().ok_or(USAGE)?;
        numbers.remove(0);
    }
    task.seed = numbers.first().copied();
    Ok(task)
}

fn whole(word: &str) -> Result<u64, String> {
    word.parse()
        .map_err(|_| format!("{word}: no number\n{USAGE}"))
}

fn tags(word: &str) -> Result<Vec<u8>, String> {
    word.split(',')
        .map(|tag| u8::from_str_radix(tag, 16).map_err(|_| format!("{tag}: no tag")))
        .collect()
}

fn temperament(word: &str) -> Result<Temperament, String> {
    ALL.into_iter()
        .find(|t| format!("{t:?}").eq_ignore_ascii_case(word))
        .ok_or(format!("{word}: no temperament"))
}

/// What a side printed, or that it refused the whole script.
type Printed = Option<String>;

/// What pliron's own code says, counted.
fn by_pliron(script: &[u8], tally: &mut Tally) -> Printed {
    let mut session = Session::new(Mode::Tested);
    let mut out = Vec::new();
    let done = run_script(script, &mut session, |session, field, answer| {
        tally.count(field, answer);
        session.write_line(&mut out, field.place, answer);
    });
    if done.is_none() {
        tally.rows[20] += 1;
    }
    tally.wrong_mappings += session.wrong_mappings;
    tally.panics += session.panics;
    done.map(|()| String::from_utf8_lossy(&out).into_owned())
}

/// How long the port may take for a script; it is ended then, which shows as a difference.
const MOST_TIME: Duration = Duration::from_secs(10);

/// What the port says.
fn by_port(task: &Task, script: &[u8]) -> Printed {
    let [program, words @ ..] = task.port.as_slice() else {
        unreachable!("a port")
    };
    let mut child = Command::new(program)
        .args(words)
        .stdin(Stdio::piped())
        .stdout(Stdio::piped())
        .stderr(Stdio::null())
        .spawn()
        .unwrap_or_else(|error| panic!("{program}: {error}"));
    let mut input = child.stdin.take().expect("its input");
    // A program that reads at most 4,097 bytes may end before the rest is written.
    let _ = if task.hex {
        input.write_all(show(script).as_bytes())
    } else {
        input.write_all(script)
    };
    drop(input);
    let mut stdout = child.stdout.take().expect("its output");
    let (send, receive) = channel();
    let reader = std::thread::spawn(move || {
        let mut bytes = Vec::new();
        let _ = stdout.read_to_end(&mut bytes);
        let _ = send.send(());
        bytes
    });
    if receive.recv_timeout(MOST_TIME).is_err() {
        child.kill().expect("it to end");
    }
    let bytes = reader.join().expect("its output");
    let status = child.wait().expect("its end");
    let text = String::from_utf8_lossy(&bytes).into_owned();
    // Both sides refuse a script that is too long by printing nothing and failing; any other failure shows as a difference.
    if status.success() {
        Some(text)
    } else if text.is_empty() {
        None
    } else {
        Some(text + "(failed)\n")
    }
}

/// The first line in which two outputs differ, or none where they are the same.
fn first_difference(pliron: &Printed, port: &Printed) -> Option<(String, String)> {
    if pliron == port {
        return None;
    }
    let (Some(pliron), Some(port)) = (pliron, port) else {
        let word = |side: &Printed| {
            if side.is_some() {
                "lines"
            } else {
                "(nothing, and a failure)"
            }
            .to_string()
        };
        return Some((word(pliron), word(port)));
    };
    let mut pairs = pliron
        .lines()
        .map(Some)
        .chain(std::iter::repeat(None))
        .zip(port.lines().map(Some).chain(std::iter::repeat(None)));
    let (left, right) = pairs
        .find(|(left, right)| left != right || left.is_none())
        .expect("an end");
    let word = |line: Option<&str>| line.unwrap_or("(no line)").to_string();
    Some((word(left), word(right)))
}

/// How often a script is run at most while it is cut down.
const MOST_RUNS: usize = 3000;

/// How many lines of a script are printed at most.
const MOST_LINES: usize = 120;

/// Takes fields out as long as the sides still differ.
fn cut_down(task: &Task, script: &[u8]) -> Vec<u8> {
    let mut runs = 0;
    let mut differs = |script: &[u8]| {
        runs += 1;
        runs <= MOST_RUNS
            && first_difference(
                &by_pliron(script, &mut Tally::default()),
                &by_port(task, script),
            )
            .is_some()
    };
    let mut script = script.to_vec();
    if script.len() > MOST_BYTES {
        return script;
    }
    let mut size = fields(&script).len().div_ceil(2).max(1);
    loop {
        let mut at = 0;
        while at < fields(&script).len() {
            let all = fields(&script);
            let start = all[at].place;
            let end = all.get(at + size).map_or(script.len(), |field| field.place);
            let shorter = [&script[..start], &script[end..]].concat();
            if differs(&shorter) {
                script = shorter;
            } else {
                at += size;
            }
        }
        if size == 1 {
            return script;
        }
        size = size.div_ceil(2);
    }
}

/// Runs the scripts whose numbers leave a rest when divided by the number of jobs.
fn run_part(
    task: &Task,
    rest: u64,
    tallies: &mut [Tally],
    different: &Mutex<BTreeMap<u64, Temperament>>,
) {
    for number in (task.from..task.from + task.scripts).filter(|number| number % task.jobs == rest)
    {
        let temperament = task.only.unwrap_or_else(|| Temperament::of(number));
        let script = temperament.write(task.seed.unwrap_or(1), number, &task.without);
        let tally = &mut tallies[temperament as usize];
        tally.scripts += 1;
        let pliron = by_pliron(&script, tally);
        if !task.port.is_empty() && pliron != by_port(task, &script) {
            tally.different += 1;
            different
                .lock()
                .expect("the list")
                .insert(number, temperament);
        }
    }
}

/// Prints the first script that differs.
fn print_first(task: &Task, number: u64, temperament: Temperament) {
    let script = temperament.write(task.seed.unwrap_or(1), number, &task.without);
    let script = cut_down(task, &script);
    println!(
        "\nthe first that differs, script {number} ({temperament:?}), cut down to {} bytes:",
        script.len()
    );
    let text = show(&script);
    text.lines()
        .take(MOST_LINES)
        .for_each(|line| println!("{line}"));
    if text.lines().count() > MOST_LINES {
        println!("...");
    }
    let pliron = by_pliron(&script, &mut Tally::default());
    if let Some((left, right)) = first_difference(&pliron, &by_port(task, &script)) {
        println!("pliron: {left}\nport:   {right}");
    }
}

fn compare(task: &Task) -> bool {
    let different = Mutex::new(BTreeMap::new());
    let mut tallies = vec![Tally::default(); ALL.len()];
    std::thread::scope(|scope| {
        let parts: Vec<_> = (0..task.jobs)
            .map(|rest| {
                let different = &different;
                let run = move || {
                    let mut tallies = vec![Tally::default(); ALL.len()];
                    run_part(task, rest, &mut tallies, different);
                    tallies
                };
                std::thread::Builder::new()
                    .stack_size(64 << 20)
                    .spawn_scoped(scope, run)
                    .expect("a thread")
            })
            .collect();
        for part in parts {
            let part = part.join().expect("a part");
            tallies
                .iter_mut()
                .zip(&part)
                .for_each(|(tally, part)| tally.add(part));
        }
    });
    for (temperament, tally) in ALL.iter().zip(&tallies) {
        println!(
            "{:<8} {:>8} same {:>6} different",
            format!("{temperament:?}"),
            tally.scripts - tally.different,
            tally.different
        );
    }
    let wrong: u64 = tallies.iter().map(|tally| tally.different).sum();
    println!(
        "{:<8} {:>8} same {wrong:>6} different, seed {}",
        "all",
        task.scripts - wrong,
        task.seed.unwrap_or(1)
    );
    if task.count {
        println!();
        print_counts(
            &[
                "Book", "Churn", "Collide", "Walks", "Limits", "Torn", "Mixed",
            ],
            &tallies,
        );
    }
    let different = different.into_inner().expect("the list");
    if let Some((number, temperament)) = different.first_key_value() {
        print_first(task, *number, *temperament);
    }
    different.is_empty()
}

fn main() -> ExitCode {
    let task = match read_task() {
        Ok(task) => task,
        Err(error) => {
            eprintln!("compare: {error}");
            return ExitCode::FAILURE;
        }
    };
    if let Some(number) = task.print {
        let temperament = task.only.unwrap_or_else(|| Temperament::of(number));
        print!(
            "{}",
            show(&temperament.write(task.seed.unwrap_or(1), number, &task.without))
        );
        return ExitCode::SUCCESS;
    }
    if compare(&task) {
        ExitCode::SUCCESS
    } else {
        ExitCode::FAILURE
    }
}
