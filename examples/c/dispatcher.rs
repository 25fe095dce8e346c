//! The dispatcher of dispatcher.c in Rust, without an unsafe call of its own.
use dover::{Decision, Dover};
use std::io::{Read, Write};

const WORDS: [&str; 8] = ["", "job", "run", "preempt", "take", "complete", "abandon", "end"];

fn dispatch(out: &mut impl Write, d: Decision, jobs: &[[u64; 4]]) -> std::io::Result<()> {
    let word = WORDS[d.kind as usize];
    match d.kind {
        1 => {
            let [release, work, deadline, value] = jobs[d.job as usize];
            writeln!(out, "{word} {} {release} {work} {deadline} {value}", d.job)
        }
        3 | 4 => writeln!(out, "{word} {} {} {}", d.tick, d.other, d.job),
        7 => writeln!(out, "{word} {}", d.tick),
        _ => writeln!(out, "{word} {} {}", d.tick, d.job),
    }
}

fn settle(out: &mut impl Write, engine: &mut Dover, mark: u64, jobs: &[[u64; 4]]) -> std::io::Result<()> {
    loop {
        match engine.step(mark) {
            d if (1..=7).contains(&d.kind) => dispatch(out, d, jobs)?,
            _ => return Ok(()),
        }
    }
}

fn main() -> Result<(), Box<dyn std::error::Error>> {
    let mut text = String::new();
    std::io::stdin().read_to_string(&mut text)?;
    let mut lines = text.lines();
    let numbers = |line: &str| line.split(' ').skip(1).map(str::parse).collect::<Result<Vec<u64>, _>>();
    let head = numbers(lines.next().ok_or("no first line")?)?;
    let (p, q, version) = (head[0], head[1], head.get(2).copied().unwrap_or(1));
    let mut out = std::io::stdout().lock();
    let made = match head.get(3..5) {
        Some(&[b, c]) => {
            writeln!(out, "dover {version} {p} {q} {b} {c}")?;
            Dover::with_factor(p as u32, q as u32, version as u32, 1_000_000, b as u32, c as u32)
        }
        _ => {
            writeln!(out, "dover {version} {p} {q}")?;
            Dover::new(p as u32, q as u32, version as u32, 1_000_000)
        }
    };
    let mut engine = made.map_err(|status| format!("no engine: {status}"))?;
    let mut jobs = Vec::new();
    for line in lines.take_while(|line| *line != "end") {
        let fields = numbers(line)?;
        settle(&mut out, &mut engine, fields[0], &jobs)?;
        match fields[..] {
            [release, work, deadline, value] => match engine.admit(release, work, deadline, value).status {
                0 => jobs.push([release, work, deadline, value]),
                status => eprintln!("refused: {status}"),
            },
            [tick, job] => match engine.done(tick, job) {
                0 => {}
                status => eprintln!("not done: {status}"),
            },
            _ => {}
        }
        settle(&mut out, &mut engine, fields[0], &jobs)?;
    }
    loop {
        match engine.finish() {
            d if d.kind != 0 => dispatch(&mut out, d, &jobs)?,
            _ => return Ok(()),
        }
    }
}
