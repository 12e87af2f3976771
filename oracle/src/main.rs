//! `oracle serve`: answers requests. `generate`, `sample`, `replay`: runs.

use std::io::{self, BufRead, BufWriter, Write};

use oracle::generate::{Form, generate};
use oracle::maps::Size;
use oracle::protocol::{Server, replay};

const USAGE: &str = "\
oracle serve
oracle replay FILE
oracle sample DIRECTORY
oracle generate [--seed S] [--runs N] [--size small|medium|large|shared|mixed]
                [--brief] [--left-out] [--quiet]";

fn main() -> io::Result<()> {
    let args: Vec<String> = std::env::args().skip(1).collect();
    let words: Vec<&str> = args.iter().map(String::as_str).collect();
    match words[..] {
        ["serve"] => serve(),
        ["replay", file] => {
            let (answers, differences) = replay(&std::fs::read_to_string(file)?);
            for d in differences.iter().take(20) {
                println!("{d}");
            }
            println!("{answers} answers, {} differences", differences.len());
            exit(differences.is_empty() && answers > 0)
        }
        ["sample", dir] => {
            for line in oracle::sample::write_all(std::path::Path::new(dir))? {
                println!("{line}");
            }
            Ok(())
        }
        ["generate", ..] => run_generate(&words[1..]),
        _ => usage(),
    }
}

fn usage() -> ! {
    eprintln!("{USAGE}");
    exit(false)
}

fn exit(good: bool) -> ! {
    std::process::exit(if good { 0 } else { 1 })
}

fn serve() -> io::Result<()> {
    let mut server = Server::default();
    let mut out = io::stdout().lock();
    for line in io::stdin().lock().lines() {
        writeln!(out, "{}", server.answer(&line?))?;
        out.flush()?;
    }
    exit(server.disagreements == 0)
}

/// Runs go to stdout, the table of hits to stderr.
fn run_generate(words: &[&str]) -> io::Result<()> {
    let (mut seed, mut runs, mut size, mut quiet) = (1, 100, None, false);
    let mut form = Form::default();
    let mut rest = words.iter();
    while let Some(word) = rest.next() {
        let mut value = || *rest.next().unwrap_or_else(|| usage());
        match *word {
            "--seed" => seed = value().parse().unwrap_or_else(|_| usage()),
            "--runs" => runs = value().parse().unwrap_or_else(|_| usage()),
            "--size" => {
                size = match value() {
                    "small" => Some(Size::Small),
                    "medium" => Some(Size::Medium),
                    "large" => Some(Size::Large),
                    "shared" => Some(Size::Shared),
                    "mixed" => None,
                    _ => usage(),
                }
            }
            "--brief" => form.brief = true,
            "--left-out" => form.left_out = true,
            "--quiet" => quiet = true,
            _ => usage(),
        }
    }
    let mut out: Box<dyn Write> = if quiet {
        Box::new(io::sink())
    } else {
        Box::new(BufWriter::new(io::stdout().lock()))
    };
    let tally = generate(seed, runs, size, form, &mut out)?;
    out.flush()?;
    tally.print(&mut io::stderr())?;
    exit(tally.disagreements.is_empty())
}
