//! Gives the same calls to the Rust and to another program, and compares each answer. The calls are cut into parts, which
//! several threads take one after the other, each with a process of the other program of its own; so what comes of it depends on
//! the calls alone, and not on how many threads there are.
use std::path::PathBuf;
use std::process::ExitCode;
use std::sync::Arc;
use std::sync::atomic::{AtomicU64, Ordering::Relaxed};
use std::sync::mpsc::{self, RecvTimeoutError, Sender};
use std::thread;
use std::time::Instant;

use crate::counts::Counts;
use crate::device::Device;
use crate::number;
use crate::other::{Found, Slot, Stream};
use crate::post::Post;
use crate::record::Answer;
use crate::report;
use crate::run::Run;
use crate::source::{self, Source};
use crate::watch::{TICK, Watch};
use crate::write::Writer;

const MOST_JOBS: u64 = 64;

/// All calls that are compared.
#[derive(Clone)]
enum Plan {
    Seeded { seed: u64, calls: u64 },
    Recorded { calls: PathBuf, answers: Option<String> },
}

impl Plan {
    fn part(&self, k: u64) -> Option<Source> {
        match self {
            Plan::Seeded { seed, calls } => source::part(*seed, *calls, k),
            Plan::Recorded { calls, .. } => (k == 0).then(|| Source::Recorded(calls.clone())),
        }
    }
}

/// What all threads look at: the part that is taken next, and from which on none is wanted any more.
struct Shared {
    program: String,
    plan: Plan,
    next: AtomicU64,
    limit: AtomicU64,
}

/// What came of one part.
struct Done {
    part: u64,
    /// How many bytes of the answers were equal.
    equal: u64,
    outcome: Outcome,
    counts: Counts,
    device: Option<Device>,
}

impl Done {
    fn new(part: u64, equal: u64, outcome: Outcome) -> Self {
        Done { part, equal, outcome, counts: Counts::default(), device: None }
    }
}

enum Outcome {
    Found(Found),
    /// The device's answer to a call, and the Rust's and ours.
    Device(Vec<String>),
    /// A record that is malformed, after which nothing is compared.
    Malformed(String),
    /// The program cannot be run, or what is to be read cannot.
    Broken(String),
}

pub fn seeded(program: &str, seed: &str, calls: &str, jobs: &str) -> ExitCode {
    let read = || Ok::<_, String>((number(seed)?, number(calls)?, number(jobs)?));
    match read() {
        Ok((seed, calls, jobs)) if (1..=MOST_JOBS).contains(&jobs) => {
            let same = compare(program, Plan::Seeded { seed, calls }, jobs);
            end(same, |count| format!("{count} calls, seed {seed}"))
        }
        Ok(_) => end(Err(format!("1 to {MOST_JOBS} jobs, not {jobs}")), |_| String::new()),
        Err(why) => end(Err(why), |_| String::new()),
    }
}

pub fn recorded(program: &str, calls: &str, answers: Option<&str>) -> ExitCode {
    let plan = Plan::Recorded { calls: calls.into(), answers: answers.map(Into::into) };
    end(compare(program, plan, 1), |count| format!("{count} calls of {calls}"))
}

/// Says the last line, if there is a comparison to say it of: how many calls were compared, and what ended it.
fn end(compared: Result<(u64, Option<&str>), String>, of: impl Fn(u64) -> String) -> ExitCode {
    match compared {
        Ok((count, None)) => {
            println!("0 differences in {}", of(count));
            ExitCode::SUCCESS
        }
        Ok((count, Some(what))) => {
            println!("{what}; equal until then: {}", of(count));
            ExitCode::FAILURE
        }
        Err(why) => {
            eprintln!("oracle: {why}");
            ExitCode::from(2)
        }
    }
}

/// Compares all; how many calls were equal, and what ended it before its end.
fn compare(program: &str, plan: Plan, jobs: u64) -> Result<(u64, Option<&'static str>), String> {
    let begun = Instant::now();
    let total = if let Plan::Seeded { calls, .. } = plan { Some(calls) } else { None };
    let shared = Shared { program: program.into(), plan, next: AtomicU64::new(0), limit: AtomicU64::new(u64::MAX) };
    let shared = Arc::new(shared);
    let slots: Vec<Arc<Slot>> = (0..jobs).map(|_| Arc::default()).collect();
    let (results, done) = mpsc::channel();
    for slot in &slots {
        let (shared, slot, results) = (shared.clone(), slot.clone(), results.clone());
        thread::spawn(move || work(&shared, &slot, &results));
    }
    drop(results);

    let mut watch = Watch::new(&slots);
    let mut equal_parts = 0;
    let (mut counts, mut device, mut first): (Counts, Option<Device>, Option<Done>) = (Counts::default(), None, None);
    loop {
        let mut done = match watch.look(total) {
            Some((part, equal)) => Done::new(part, equal, Outcome::Found(Found::Hangs)),
            None => match done.recv_timeout(TICK) {
                Ok(done) => done,
                Err(RecvTimeoutError::Disconnected) => break,
                Err(RecvTimeoutError::Timeout) => continue,
            },
        };
        counts.merge(std::mem::take(&mut done.counts));
        device = done.device.take().or(device);
        if let Outcome::Found(Found::Equal) = done.outcome {
            equal_parts += 1;
            continue;
        }
        shared.limit.fetch_min(done.part, Relaxed);
        if first.as_ref().is_none_or(|first| done.part < first.part) {
            let hung = matches!(done.outcome, Outcome::Found(Found::Hangs));
            first = Some(done);
            if hung {
                break;
            }
        }
    }
    // Others may still be at later parts.
    let stop = || {
        shared.limit.store(0, Relaxed);
        slots.iter().for_each(|slot| slot.kill());
    };
    stop();
    let calls = slots.iter().map(|slot| slot.calls.load(Relaxed)).sum();
    let seconds = begun.elapsed().as_secs_f64();
    if !first.as_ref().is_some_and(|first| matches!(first.outcome, Outcome::Found(_) | Outcome::Broken(_))) {
        counts.print();
    }
    println!("{:.1} seconds, {} calls a second, {jobs} at a time", seconds, (calls as f64 / seconds) as u64);
    if let Some(device) = device {
        let Device { answered, silent, lines, .. } = device;
        println!("the device's record: {lines} lines of answers to {answered} calls, held to ours; {silent} calls without");
    }
    if first.is_none() {
        // Nothing is said of calls that were not compared, as when a thread of this program has broken off.
        if shared.plan.part(equal_parts).is_some() || total.is_some_and(|total| total != calls) {
            return Err(format!("broken off after {calls} calls"));
        }
        if calls == 0 {
            return Err("no calls to compare".into());
        }
    }
    let said = first.map(|first| say(&shared, first)).transpose();
    stop();
    Ok((calls, said?))
}

/// Says what the first difference is, and gives the words for the last line.
fn say(shared: &Shared, first: Done) -> Result<&'static str, String> {
    match first.outcome {
        Outcome::Broken(why) => return Err(why),
        Outcome::Malformed(why) => {
            println!("malformed: {why}; what comes before it was compared");
            return Ok("a malformed record");
        }
        Outcome::Device(lines) => lines.iter().for_each(|line| println!("{line}")),
        Outcome::Found(found) => {
            let source = shared.plan.part(first.part).unwrap();
            report::difference(&shared.program, &source, first.equal, found)?;
        }
    }
    Ok("1 difference, the first, and looked for no further")
}

/// Takes parts, one after the other.
fn work(shared: &Shared, slot: &Arc<Slot>, results: &Sender<Done>) {
    let mut run = Run::new(Post::new());
    loop {
        let part = shared.next.fetch_add(1, Relaxed);
        if part > shared.limit.load(Relaxed) {
            return;
        }
        let Some(source) = shared.plan.part(part) else { return };
        slot.part.store(part, Relaxed);
        let mut done = Done::new(part, 0, Outcome::Found(Found::Equal));
        match give(shared, slot, &source, &mut run, &mut done) {
            Ok(outcome) => done.outcome = outcome,
            Err(why) => done.outcome = Outcome::Broken(why),
        }
        done.equal = slot.equal.load(Relaxed);
        // A part that was broken off because an earlier one differs says nothing.
        if part > shared.limit.load(Relaxed) || results.send(done).is_err() {
            return;
        }
    }
}

/// Gives the calls of one part to both.
fn give(shared: &Shared, slot: &Arc<Slot>, source: &Source, run: &mut Run<Post>, done: &mut Done) -> Result<Outcome, String> {
    if let Plan::Recorded { answers: Some(path), .. } = &shared.plan {
        done.device = Some(Device::open(path)?);
    }
    let mut stream = Stream::start(&shared.program, slot)?;
    let (mut calls, mut answers) = (Writer { out: vec![] }, Writer { out: vec![] });
    let (mut count, mut unlike) = (0, None);
    let mut number = 0u64;
    let (part, counts, device) = (done.part, &mut done.counts, &mut done.device);
    let read = source.run(run, &mut |run, call, line| {
        let answer = run.call(call)?;
        match line {
            None => calls.call(call),
            Some(line) => calls.out.extend(line.iter().chain(b"\n")),
        }
        if answer != Answer::Nothing {
            counts.add(call, &answer);
            count += 1;
            number += 1;
            let begin = answers.out.len();
            answers.answer(call, &answer, &run.post.plain);
            if let Some(device) = device
                && let Some(theirs) = device.hold(call.word(), &answers.out[begin..])?
            {
                unlike = Some(device_differs(number, line.unwrap_or_default(), theirs, &answers.out[begin..]));
                return Ok(None);
            }
        }
        let going = stream.hand_on(&mut calls.out, &mut answers.out, &mut count, false);
        Ok((going && part <= shared.limit.load(Relaxed)).then_some(answer))
    });
    let going = part <= shared.limit.load(Relaxed) && stream.hand_on(&mut calls.out, &mut answers.out, &mut count, true);
    if !going && part > shared.limit.load(Relaxed) {
        slot.kill();
    }
    let found = stream.end();
    let all_read = read.and_then(|()| if unlike.is_some() { Ok(()) } else { done.device.as_ref().map_or(Ok(()), Device::end) });
    Ok(match (found, unlike, all_read) {
        (Found::Equal, None, Err(why)) => Outcome::Malformed(why),
        (Found::Equal, Some(lines), _) => Outcome::Device(lines),
        (found, ..) => Outcome::Found(found),
    })
}

/// The device's line that does not stand in our answer, with the line of ours that begins with the same word.
fn device_differs(number: u64, call: &[u8], theirs: Vec<u8>, answer: &[u8]) -> Vec<String> {
    let theirs = String::from_utf8_lossy(&theirs).into_owned();
    let word = theirs.split(' ').next();
    let answer = String::from_utf8_lossy(answer);
    let same: Vec<String> = answer.lines().filter(|line| line.split(' ').next() == word).map(Into::into).collect();
    let mut out = vec![
        "the first difference: the device's answer has a line that stands not in ours and the Rust's, or not in that order"
            .into(),
        format!("call {number}: {}", String::from_utf8_lossy(call)),
        String::new(),
    ];
    out.extend(report::beside(&[theirs], &same, "device", "ours"));
    out.push(String::new());
    out
}
