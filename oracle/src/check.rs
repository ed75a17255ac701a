//! Compares the Rust with the papers and with itself, and asks demand 3 of it.
use std::collections::BTreeMap;
use std::io::{self, Write};
use std::time::Instant;

use crate::demand::{Demand, Fault};
use crate::generate::{Generator, Kind};
use crate::number;
use crate::plain::Plain;
use crate::post::Post;
use crate::record::{Answer, Call};
use crate::run::{Answers, Run};
use crate::write::Writer;

/// Whether the answer is a refusal that the Rust does not know: 9, and 2 to 6 at creation.
pub fn by_definition(call: &Call, answer: &Answer) -> bool {
    answer.number() == 9 || *call == Call::New && (2..=6).contains(&answer.number())
}

/// Half of the calls are runs of fresh clients, of which demand 3 is asked; the other half are on states of any kind, whole
/// and not. Each call is made three times: by a post that goes on, by one that is set to the state before the call, and by
/// the model; the three have to agree on the answer and on all that it leaves.
pub fn check(seed: &str, count: &str, fault: &str) -> Result<(), String> {
    let fault = match fault {
        "none" => Fault::None,
        "late-expiry" => Fault::LateExpiry,
        "lost-returns" => Fault::LostReturns,
        "early-waking" => Fault::EarlyWaking,
        _ => return Err(format!("`{fault}` is not late-expiry, lost-returns or early-waking")),
    };
    let (seed, count) = (number(seed)?, number(count)?);
    let begun = Instant::now();
    let mut totals: BTreeMap<(&str, u8), u64> = BTreeMap::new();
    let mut lines: BTreeMap<&str, u64> = BTreeMap::new();
    let mut demand = Demand::new(fault);
    let (mut calls, mut apart, mut runs, mut shown) = (0u64, 0u64, 0u64, 0);
    let half = count / 2;
    for (kind, end) in
        [(Kind::Runs, half), (Kind::States, half + half * 3 / 4), (Kind::Broken, half + half * 7 / 8), (Kind::Tables, count)]
    {
        let (mut run, mut twin) = (Run::new(Post::new()), Run::new(Post::new()));
        let mut generator = Generator::new(seed, kind);
        let mut record = Writer { out: vec![] };
        while calls < end {
            let call = generator.next(&run.post);
            if let Call::Start { .. } = call {
                record.out.clear();
                runs += (kind == Kind::Runs) as u64;
            }
            record.call(&call);
            let before = run.snapshot();
            let tables = run.post.plain.tables;
            let mut model = run.post.plain.clone();
            let answer = run.call(&call)?;
            generator.note(&call, &answer);
            if answer == Answer::Nothing {
                continue;
            }
            calls += 1;
            apart += by_definition(&call, &answer) as u64;
            *totals.entry((call.word(), answer.number())).or_default() += 1;
            for set in &before {
                twin.call(set)?;
            }
            let mut failed = None;
            let mut beside = |what: &str, answer: &Answer, post: &Plain| {
                record.out.extend_from_slice(format!("# {what}\n").as_bytes());
                record.answer(&call, answer, post);
            };
            let again = twin.call(&call)?;
            let by_the_papers = model.answer(&call);
            if (&again, &twin.post.plain) != (&answer, &run.post.plain) {
                beside("the Rust, having come to this call:", &answer, &run.post.plain);
                beside("the Rust, set to the state before it:", &again, &twin.post.plain);
                failed = Some("the two answers above differ".into());
            } else if (&by_the_papers, &model) != (&answer, &run.post.plain) {
                beside("the Rust:", &answer, &run.post.plain);
                beside("by the papers:", &by_the_papers, &model);
                failed = Some("the two answers above differ".into());
            } else if kind == Kind::Runs
                && let Err(why) = demand.check(&call, &answer, &tables, &mut run.post)
            {
                failed = Some(format!("demand 3 does not hold: {why}"));
            }
            if let Some(why) = failed {
                io::stdout().write_all(&record.out).map_err(|e| e.to_string())?;
                return Err(format!("after call {calls}, the last of the run above: {why}"));
            }
            if begun.elapsed().as_secs() / 10 > shown {
                shown = begun.elapsed().as_secs() / 10;
                eprintln!("{calls} of {count} calls");
            }
        }
        for (line, count) in run.post.seen {
            *lines.entry(line).or_default() += count;
        }
    }
    let rate = ((2 * calls + demand.probes) as f64 / begun.elapsed().as_secs_f64()) as u64;
    println!("{} calls, each by the Rust twice and by the model: no difference", calls - apart);
    println!("{apart} more are refused by a definition before the Rust is asked, by 9 or by 2 to 6: compared with nothing");
    println!("{half} of all in {runs} runs of fresh clients, and {} polls tried beside them: demand 3 holds", demand.probes);
    println!("polls with a lease in force: {}; entries lost: {}", demand.leases, demand.losses);
    println!("calls of the Rust a second, with all that is compared: {rate}");
    println!("outcomes:");
    for ((word, number), count) in totals {
        println!("  {word} {number}: {count}");
    }
    println!("the Rust's log lines:");
    for (line, count) in lines {
        println!("  {count} {line}");
    }
    Ok(())
}
