// The baseline: plays transcripts as the reader does (open, feed, next, verdict, close, weigh counts, end), and times notes.
mod chart;
mod grammar;
mod hash;
mod weigh;

use chart::Chart;
use grammar::Grammar;
use std::fmt::Write;
use std::time::Instant;
use std::{env, fs, io};

fn play(grammar: &Grammar, text: &str) -> Result<String, String> {
    let mut out = String::new();
    let mut chart = Chart::open(grammar);
    for line in text.lines() {
        let words: Vec<&str> = line.split_whitespace().collect();
        let number = |i: usize| words.get(i).and_then(|w| w.parse::<u32>().ok()).ok_or(format!("bad line: {line}"));
        let answer = match words[..] {
            ["open", _] => {
                chart = Chart::open(grammar);
                format!("ok {}", chart.cells())
            }
            ["feed", _] => match chart.feed(number(1)?) {
                Ok(cells) => format!("ok {cells}"),
                Err(refusal) => format!("refused {}", refusal as u32),
            },
            ["next", _] => chart.next_list().iter().fold("ok".into(), |line, t| format!("{line} {t}")),
            ["verdict"] => (if chart.is_complete() { "complete" } else { "incomplete" }).into(),
            ["close"] => format!("ok {}", chart.bound()),
            ["weigh", "counts", _] => format!("ok {}", weigh::count(&chart, number(2)?)),
            ["end"] => "ok".into(),
            _ => return Err(format!("bad line: {line}")),
        };
        writeln!(out, "{line} -> {answer}").map_err(|e| e.to_string())?;
    }
    Ok(out)
}

// What is asked of each note.
struct Task {
    // The next list after each token.
    next: bool,
    // The count to depth 32.
    weigh: bool,
    // The grammar is read anew for each note.
    anew: bool,
}

fn nanos(start: Instant) -> u128 {
    start.elapsed().as_nanos()
}

// Runs a note, and tells the times: of opening, of each token, of each next list, and of weighing and ending.
fn time_note(bytes: &[u8], shared: &Grammar, tokens: &[u32], task: &Task) -> Result<String, String> {
    let (mut feeds, mut nexts) = (String::new(), String::new());
    let (mut offered, mut count) = (0, 0);
    let start = Instant::now();
    let own = if task.anew { Some(Grammar::read(bytes)?) } else { None };
    let mut chart = Chart::open(own.as_ref().unwrap_or(shared));
    let opening = nanos(start);
    for token in tokens {
        let start = Instant::now();
        chart.feed(*token).map_err(|_| "a token is refused")?;
        write!(feeds, " {}", nanos(start)).map_err(|e| e.to_string())?;
        if task.next {
            let start = Instant::now();
            let list = chart.next_list();
            write!(nexts, " {}", nanos(start)).map_err(|e| e.to_string())?;
            offered += list.len();
        }
    }
    let cells = chart.cells();
    let start = Instant::now();
    if task.weigh {
        count = weigh::count(&chart, 32);
    }
    let weighing = nanos(start);
    let start = Instant::now();
    drop(chart);
    drop(own);
    let ending = nanos(start);
    Ok(format!("open {opening} feed{feeds} next{nexts} weigh {weighing} end {ending} cells {cells} offered {offered} count {count}"))
}

fn main() -> Result<(), String> {
    let arguments: Vec<String> = env::args().skip(1).collect();
    let words: Vec<&str> = arguments.iter().map(String::as_str).collect();
    let read = |path: &str| fs::read(path).map_err(|e| format!("{path}: {e}"));
    match words[..] {
        ["transcript", path] => {
            let text = io::read_to_string(io::stdin()).map_err(|e| e.to_string())?;
            print!("{}", play(&Grammar::read(&read(path)?)?, &text)?);
        }
        ["time", path, notes, _, repetitions, ref options @ ..] => {
            let bytes = read(path)?;
            let grammar = Grammar::read(&bytes)?;
            let text = fs::read_to_string(notes).map_err(|e| e.to_string())?;
            let task = Task {
                next: options.contains(&"next"),
                weigh: options.contains(&"weigh"),
                anew: options.contains(&"anew"),
            };
            for _ in 0..repetitions.parse::<u32>().map_err(|e| e.to_string())? {
                for line in text.lines() {
                    let tokens: Vec<u32> = line.split_whitespace().filter_map(|w| w.parse().ok()).collect();
                    println!("{}", time_note(&bytes, &grammar, &tokens, &task)?);
                }
            }
        }
        _ => return Err("baseline transcript GRAMMAR | baseline time GRAMMAR NOTES AREA REPETITIONS [next] [weigh] [anew]".into()),
    }
    Ok(())
}
