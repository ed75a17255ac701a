//! The Rust's client as the judge: it answers lists of calls, and is compared with the papers. oracle/README.md has the
//! commands.
#[macro_use]
mod macros;
#[macro_use]
mod fmt;
mod config;
mod driver;
mod error;
mod iface;
mod packet_buf;
mod pool;
mod rand;
mod route;
mod stack;
mod storage;
mod time;
mod wire;

mod answers;
mod bench;
mod boundaries;
mod check;
mod closeup;
mod compare;
mod counts;
mod demand;
mod device;
mod draw;
mod episode;
mod generate;
mod history;
mod legend;
mod lines;
mod lists;
mod message;
mod model;
mod other;
mod pitch;
mod plain;
mod post;
mod read;
mod record;
mod replies;
mod report;
mod rows;
mod run;
mod season;
mod show;
mod shrink;
mod simpler;
mod source;
mod svg;
mod values;
mod variety;
mod watch;
mod words;
mod write;

use std::io::{self, BufRead, Write};
use std::process::ExitCode;

use lines::Lines;
use plain::Plain;
use post::Post;
use read::Fields;
use record::Answer;
use run::{Answers, Run};
use write::Writer;

const USAGE: &str = "usage: oracle answer                     answers the calls on standard input
       oracle papers                     answers them by the papers alone, without the Rust's client
       oracle lines                      which of the Rust's log lines they reach, and how often
       oracle variety                    which kinds of values they have that a list easily lacks, and how often
       oracle expand                     turns calls written by hand, `reply` among them, into a list of calls
       oracle expect                     runs a list of calls, and holds the answers to its `#=` and `#!` lines
       oracle show                       prints calls or answers, with the messages in them in words
       oracle generate KIND SEED COUNT [narrow]
                                         writes that many calls: KIND is runs, states, broken, tables, replies, polls or wire;
                                         narrow: of the fewer values that the recorded lists were made of
       oracle boundaries KIND            writes calls round the limits: KIND is creations, replies, polls or wire
       oracle check SEED COUNT [FAULT]   compares that many calls with the papers, and asks demand 3 of the Rust; FAULT, a
                                         wrong expectation that must be found, is late-expiry, lost-returns or early-waking
       oracle compare REPLAY SEED CALLS JOBS
                                         gives that many calls to the Rust and to the program REPLAY, JOBS lists at a time,
                                         compares each answer, and shrinks the first difference; exit status 2 where
                                         REPLAY cannot be run
       oracle trace REPLAY CALLS [ANSWERS]
                                         the same with the list of calls in a file, and with the answers that a device gave
       oracle season                     runs a whole season with the Rust's client, and prints what came of it
       oracle season calls [SEED]        writes one pitch's season as a list of calls
       oracle draw LIST FILE             draws the season of a list, from the answers on standard input, into an SVG file
       oracle bench                      makes the calls of crates/bench/stdin, or others like them, over and over
A list of calls comes on standard input, and docs/TRACE.md says how it is written. Exit status: 0, or 1 where a record is
malformed, an expectation or the demand does not hold or there is nothing to draw, or 2 where the command is wrong.";

fn main() -> ExitCode {
    post::keep_panics();
    let words: Vec<String> = std::env::args().skip(1).collect();
    let words: Vec<&str> = words.iter().map(String::as_str).collect();
    let done = match words[..] {
        ["answer"] => answer(Post::new()),
        ["papers"] => answer(Plain::zero()),
        ["lines"] => log_lines(),
        ["variety"] => variety::variety(),
        ["expand"] => expand(),
        ["expect"] => expect(),
        ["show"] => show(),
        ["generate", kind, seed, count] => lists::generate(kind, seed, count, false),
        ["generate", kind, seed, count, "narrow"] => lists::generate(kind, seed, count, true),
        ["boundaries", kind] => lists::boundaries(kind),
        ["season"] => season::season(),
        ["season", "calls"] => pitch::calls("1"),
        ["season", "calls", seed] => pitch::calls(seed),
        ["draw", list, file] => draw::draw(list, file),
        ["compare", replay, seed, calls, jobs] => return compare::seeded(replay, seed, calls, jobs),
        ["trace", replay, calls] => return compare::recorded(replay, calls, None),
        ["trace", replay, calls, answers] => return compare::recorded(replay, calls, Some(answers)),
        ["bench"] => bench::bench(),
        ["check", seed, count] => check::check(seed, count, "none"),
        ["check", seed, count, fault] => check::check(seed, count, fault),
        _ => {
            eprintln!("{USAGE}");
            return ExitCode::from(2);
        }
    };
    match done {
        Ok(()) => ExitCode::SUCCESS,
        Err(why) => {
            eprintln!("oracle: {why}");
            ExitCode::FAILURE
        }
    }
}

fn number(text: &str) -> Result<u64, String> {
    text.parse().map_err(|_| format!("`{text}` is not a number"))
}

/// Hands each line of standard input to the caller, with its number from 1; empty ones and comments too.
fn lines(each: impl FnMut(usize, &[u8]) -> Result<(), String>) -> Result<(), String> {
    lines_of(io::stdin().lock(), each)
}

/// The same, of any input.
fn lines_of(input: impl BufRead, mut each: impl FnMut(usize, &[u8]) -> Result<(), String>) -> Result<(), String> {
    let mut input = Lines::new(input);
    for number in 1.. {
        let Some(line) = input.next()? else { break };
        each(number, line).map_err(|why| format!("line {number}: {why}"))?;
    }
    Ok(())
}

fn answer(post: impl Answers) -> Result<(), String> {
    let (mut run, mut fields, mut writer) = (Run::new(post), Fields::default(), Writer { out: vec![] });
    let result = lines(|_, line| {
        if line.is_empty() || line[0] == b'#' {
            return Ok(());
        }
        let call = fields.call(line)?;
        let answer = run.call(&call)?;
        writer.answer(&call, &answer, run.post.plain());
        writer.flush(false)
    });
    writer.flush(true)?;
    result
}

fn log_lines() -> Result<(), String> {
    let (mut run, mut fields) = (Run::new(Post::new()), Fields::default());
    lines(|_, line| {
        if !line.is_empty() && line[0] != b'#' {
            run.call(&fields.call(line)?)?;
        }
        Ok(())
    })?;
    for (line, count) in run.post.seen {
        println!("{count} {line}");
    }
    Ok(())
}

fn show() -> Result<(), String> {
    let mut out = io::BufWriter::new(io::stdout().lock());
    lines(|_, line| {
        let mut print = || -> io::Result<()> {
            out.write_all(line)?;
            out.write_all(b"\n")?;
            for words in show::words(line) {
                writeln!(out, "    {words}")?;
            }
            Ok(())
        };
        print().map_err(|e| e.to_string())
    })
}

/// Turns what is written by hand into a list of calls: comments stay, a `reply` becomes the `process` that it stands for.
fn expand() -> Result<(), String> {
    let (mut run, mut fields, mut writer) = (Run::new(Post::new()), Fields::default(), Writer { out: vec![] });
    let result = lines(|_, line| {
        if line.is_empty() || line[0] == b'#' {
            writer.out.extend_from_slice(line);
            writer.out.push(b'\n');
            return Ok(());
        }
        let call = run.expand(fields.call(line)?);
        run.call(&call)?;
        writer.call(&call);
        writer.flush(false)
    });
    writer.flush(true)?;
    result
}

/// Runs a list of calls and holds the answers to what a paper says: after a call, a comment `#=` has words that stand in
/// its answer, `#!` words that don't, `#:` a whole line, several of them in the order in which they stand there. oracle/held.awk
/// does the same with our answers.
fn expect() -> Result<(), String> {
    let (mut run, mut fields, mut writer) = (Run::new(Post::new()), Fields::default(), Writer { out: vec![] });
    let (mut held, mut failed, mut from) = (0u64, 0u64, 0);
    lines(|number, line| {
        if line.is_empty() || line[0] == b'#' && !line.get(1).is_some_and(|c| b"=!:".contains(c)) {
            return Ok(());
        }
        if line[0] != b'#' {
            let call = run.expand(fields.call(line)?);
            let answer = run.call(&call)?;
            writer.out.clear();
            if answer != Answer::Nothing {
                writer.answer(&call, &answer, &run.post.plain);
                from = 0;
            }
            return Ok(());
        }
        let text = line[2..].trim_ascii_start();
        if writer.out.is_empty() {
            return Err("a figure behind no call".into());
        }
        if text.split(|c| *c == b' ').any(|word| word.is_empty()) {
            return Err("a figure without a word, or with two spaces".into());
        }
        let mut judge = |holds: bool, what: &[u8]| {
            held += holds as u64;
            failed += !holds as u64;
            if !holds {
                println!("line {number}: not so: {}{}, in the answer", line[1] as char, String::from_utf8_lossy(what));
                print!("{}", String::from_utf8_lossy(&writer.out));
            }
        };
        if line[1] == b':' {
            let place = writer.out.split(|c| *c == b'\n').skip(from).position(|there| there == text);
            from += place.map_or(0, |place| place + 1);
            judge(place.is_some(), text);
            return Ok(());
        }
        for word in text.split(|c| *c == b' ') {
            let stands = writer.out.split(|c| *c == b' ' || *c == b'\n').any(|there| there == word);
            judge(stands == (line[1] == b'='), word);
        }
        Ok(())
    })?;
    println!("{held} expectations hold, {failed} do not");
    if failed == 0 { Ok(()) } else { Err("the Rust answers otherwise than the paper says".into()) }
}
