//! Says what the first difference is: the smallest list of calls that shows it, and both answers beside each other.
use std::fs::{self, File};
use std::path::PathBuf;

use crate::other::Found;
use crate::post::Post;
use crate::record::Answer;
use crate::run::Run;
use crate::show;
use crate::shrink::{Shown, Shrink, Step, line, text};
use crate::source::Source;
use crate::write::Writer;

/// So many records are a handful: a list that begins with a fresh client is taken if it is no longer.
const HANDFUL: usize = 8;

/// The most records of a source that are gone through where those from the last `start` on are not enough; a part made from a
/// seed has fewer.
const MOST_RECORDS: usize = 100_000;

/// The most records of a list, and the most lines of an answer, that are printed.
const MOST_LINES: usize = 60;

/// The records up to the difference.
#[derive(Default)]
struct Lists {
    /// All of them, as far as they are not too many.
    whole: Vec<Vec<u8>>,
    /// Those from the last `start` on.
    since: Vec<Vec<u8>>,
    /// The state before the last call, and that call.
    single: Vec<Vec<u8>>,
}

/// Makes the calls again, up to the one whose answer has the byte at which the difference was seen.
fn lists(source: &Source, equal: u64) -> Lists {
    let mut lists = Lists::default();
    let (mut answers, mut written) = (Writer { out: vec![] }, 0);
    let mut run = Run::new(Post::new());
    let _ = source.run(&mut run, &mut |run, call, read| {
        let record = read.map_or_else(|| line(call), <[u8]>::to_vec);
        if record.starts_with(b"start ") {
            lists.since.clear();
        }
        if lists.whole.len() < MOST_RECORDS {
            lists.whole.push(record.clone());
        }
        lists.since.push(record.clone());
        let before = run.snapshot();
        let answer = run.call(call)?;
        if answer == Answer::Nothing {
            return Ok(Some(answer));
        }
        lists.single = before.iter().map(line).chain([record]).collect();
        answers.out.clear();
        answers.answer(call, &answer, &run.post.plain);
        written += answers.out.len() as u64;
        Ok((written <= equal).then_some(answer))
    });
    lists
}

/// Where what is found is put, beside the oracle's own folder.
fn folder() -> Result<PathBuf, String> {
    let own = std::env::current_exe().map_err(|e| e.to_string())?;
    let folder = own.ancestors().nth(2).unwrap_or(&own).join("compare");
    fs::create_dir_all(&folder).map_err(|e| format!("{}: {e}", folder.display()))?;
    Ok(folder)
}

/// The smaller of two lists: fewer records, then fewer characters. A fresh client's is taken where it is a handful.
fn smaller(fresh: Option<Vec<Step>>, single: Option<Vec<Step>>) -> Option<Vec<Step>> {
    let measure = |steps: &Vec<Step>| (steps.len(), text(steps).len());
    match (fresh, single) {
        (Some(fresh), Some(single)) if fresh.len() > HANDFUL && measure(&single) < measure(&fresh) => Some(single),
        (fresh, single) => fresh.or(single),
    }
}

/// Shrinks the difference that was seen after so many equal bytes, and prints it.
pub fn difference(program: &str, source: &Source, equal: u64, found: Found) -> Result<(), String> {
    let folder = folder()?;
    // What is only seen to be missing may have been lost on its way: the call that did it can be any from there on.
    let wrong = found == Found::Differs;
    let lists = lists(source, if wrong { equal } else { u64::MAX });
    println!("the first difference: {}", what(found));
    eprintln!("looking for the smallest list of calls that shows it");
    let mut shrink = Shrink::new(program, found);
    let (mut fresh, mut single) = (None, None);
    if wrong {
        fresh = shrink.shown(&lists.since);
        single = shrink.shown(&lists.single).map(|steps| shrink.shrink(steps));
    }
    if fresh.is_none() && single.is_none() {
        fresh = shrink.shown(&lists.whole).map(|steps| shrink.shortest(steps));
    }
    let fresh = fresh.map(|steps| shrink.shrink(steps));
    let Some(steps) = smaller(fresh, single) else {
        println!("it does not show when the same calls are made again, the last of them:");
        print(&lists.since.join(&b'\n'));
        println!();
        return Ok(());
    };
    let errors = folder.join("errors");
    let file = File::create(&errors).map_err(|e| format!("{}: {e}", errors.display()))?;
    let shown = shrink.shows(&steps, file.into());
    let text = in_words(&steps);
    let path = folder.join("first-difference.calls");
    fs::write(&path, &text).map_err(|e| format!("{}: {e}", path.display()))?;
    let spent = if shrink.spent() { ", and there was no time for more" } else { "" };
    println!(
        "the smallest list of calls that shows it, of {} tried{spent}; it is in target/compare/first-difference.calls:",
        shrink.tries
    );
    println!();
    match steps.len() {
        few if few <= MOST_LINES => print(&text),
        many => println!("({many} records)"),
    }
    println!();
    if let Some(shown) = shown {
        answers(found, &shown);
    }
    let said = fs::read(&errors).unwrap_or_default();
    let _ = fs::remove_file(&errors);
    if found != Found::Differs && !said.is_empty() {
        println!("ours said: {}", String::from_utf8_lossy(&said[..said.len().min(400)]).trim_end());
    }
    Ok(())
}

/// A list with its messages in words, as comments.
fn in_words(steps: &[Step]) -> Vec<u8> {
    let mut out = vec![];
    for Step { line, .. } in steps {
        out.extend(line.iter().chain(b"\n"));
        for words in show::words(line) {
            out.extend(format!("#   {words}\n").bytes());
        }
    }
    out
}

fn what(found: Found) -> &'static str {
    match found {
        Found::Equal => "none",
        Found::Differs => "an answer of ours is not the Rust's, is missing or is one too many",
        Found::Died => "ours broke off before it had answered all, and its exit status is not 0",
        Found::Hangs => "ours neither answers nor ends",
        Found::Failed => "ours answered all as the Rust does, and its exit status is not 0",
    }
}

/// Both answers to the last call of the list.
fn answers(found: Found, shown: &Shown) {
    match found {
        _ if shown.rust.is_empty() && shown.ours.is_empty() => return,
        Found::Hangs => println!("the Rust's answer to its last call, where ours has none:"),
        _ => println!("both answers to its last call, what is equal once:"),
    }
    println!();
    let (rust, ours) = (split(&shown.rust), split(&shown.ours));
    for line in beside(&rust, &ours, "Rust", "ours").iter().take(MOST_LINES) {
        println!("{line}");
    }
    println!();
}

fn split(text: &[u8]) -> Vec<String> {
    let text = String::from_utf8_lossy(text);
    text.lines().take(MOST_LINES).map(Into::into).collect()
}

/// Two answers beside each other: a line that both have once, and any other with whose it is. Where two lines with bytes in
/// them stand against each other, what differs in words follows.
pub fn beside(one: &[String], other: &[String], name: &str, other_name: &str) -> Vec<String> {
    let width = name.len().max(other_name.len()) + 2;
    let whose = |name: &str, line: &str| format!("{:width$}{line}", format!("{name}:"));
    let mut out = vec![];
    let (mut i, mut j) = (0, 0);
    while i < one.len() || j < other.len() {
        let (a, b) = (one.get(i), other.get(j));
        if let (Some(a), Some(b)) = (a, b) {
            let same_word = a.split(' ').next() == b.split(' ').next();
            if a == b {
                out.push(format!("{:width$}{a}", ""));
            } else if same_word {
                out.extend([whose(name, a), whose(other_name, b)]);
                let (words, other_words) = (show::words(a.as_bytes()), show::words(b.as_bytes()));
                out.extend(words.iter().filter(|w| !other_words.contains(w)).map(|w| whose(name, &format!("    {w}"))));
                out.extend(other_words.iter().filter(|w| !words.contains(w)).map(|w| whose(other_name, &format!("    {w}"))));
            }
            if a == b || same_word {
                (i, j) = (i + 1, j + 1);
                continue;
            }
        }
        // The line stands alone: on the side whose line does not come later on the other.
        match (a, b) {
            (Some(a), b) if b.is_none() || !other[j..].contains(a) => {
                out.push(whose(name, a));
                i += 1;
            }
            (_, Some(b)) => {
                out.push(whose(other_name, b));
                j += 1;
            }
            _ => i += 1,
        }
    }
    out
}

fn print(text: &[u8]) {
    print!("{}", String::from_utf8_lossy(text));
}
