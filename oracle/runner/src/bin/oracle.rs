//! Runs a script over pliron's own code, and prints a line for each of its fields.

use std::hint::black_box;
use std::io::{Read, Write};
use std::process::ExitCode;
use std::time::Instant;

use runner::hexadecimal::decode;
use runner::line::{lines, run_script};
use runner::session::{Mode, Session};

const USAGE: &str = "usage: oracle [--hex] [--drop-added] [--as-published] [--bench TIMES] [FILE]

Runs the script in FILE, or on standard input, over pliron's own code, and prints a line for each of its fields.

  --hex          the script is written in hexadecimal digits, as for irscript
  --drop-added   prints no line for what a row refuses that the port adds
  --as-published leaves the mapping of a refused insert as pliron does, and goes on where rows 17 to 19
                 would refuse; a walk may then never end
  --bench TIMES  runs the script so often, each time in a new session, without testing what pliron did; writes each
                 line into one buffer, and prints how many lines and bytes that gave
  --help         print this
";

struct Task {
    hex: bool,
    drop_added: bool,
    mode: Mode,
    bench: Option<u64>,
    file: Option<String>,
}

fn read_task() -> Result<Option<Task>, String> {
    let mut task = Task {
        hex: false,
        drop_added: false,
        mode: Mode::Tested,
        bench: None,
        file: None,
    };
    let mut words = std::env::args().skip(1);
    while let Some(word) = words.next() {
        match word.as_str() {
            "--help" => return Ok(None),
            "--hex" => task.hex = true,
            "--drop-added" => task.drop_added = true,
            "--as-published" => task.mode = Mode::AsPublished,
            "--bench" => {
                task.bench = Some(
                    words
                        .next()
                        .and_then(|n| n.parse().ok())
                        .ok_or("--bench wants a number")?,
                )
            }
            _ if word.starts_with('-') || task.file.is_some() => {
                return Err(format!("{word}: see --help"));
            }
            _ => task.file = Some(word),
        }
    }
    Ok(Some(task))
}

fn read_script(task: &Task) -> Result<Vec<u8>, String> {
    let bytes = match &task.file {
        Some(file) => std::fs::read(file).map_err(|error| format!("{file}: {error}"))?,
        None => {
            let mut bytes = Vec::new();
            std::io::stdin()
                .read_to_end(&mut bytes)
                .map_err(|error| error.to_string())?;
            bytes
        }
    };
    if task.hex { decode(&bytes) } else { Ok(bytes) }
}

fn bench(script: &[u8], times: u64) -> Result<(), String> {
    let start = Instant::now();
    let mut fields = 0u64;
    let mut bytes = 0u64;
    let mut line = Vec::with_capacity(8192);
    for _ in 0..times {
        let mut session = Session::new(Mode::Quick);
        run_script(script, &mut session, |session, field, answer| {
            line.clear();
            session.write_line(&mut line, field.place, answer);
            fields += 1;
            bytes += black_box(&line).len() as u64;
        })
        .ok_or("the script has over 4,096 bytes")?;
    }
    let spent = start.elapsed();
    let each = spent.as_nanos() as f64 / fields.max(1) as f64;
    eprintln!("{:.3} s, {each:.0} ns for each line", spent.as_secs_f64());
    println!("{fields} lines, {bytes} bytes");
    Ok(())
}

fn run() -> Result<(), String> {
    let Some(task) = read_task()? else {
        print!("{USAGE}");
        return Ok(());
    };
    let script = read_script(&task)?;
    if let Some(times) = task.bench {
        return bench(&script, times);
    }
    let lines = lines(&script, &mut Session::new(task.mode), task.drop_added)
        .ok_or("the script has over 4,096 bytes")?;
    std::io::stdout()
        .write_all(&lines)
        .map_err(|error| error.to_string())
}

fn main() -> ExitCode {
    match run() {
        Ok(()) => ExitCode::SUCCESS,
        Err(error) => {
            eprintln!("oracle: {error}");
            ExitCode::FAILURE
        }
    }
}
