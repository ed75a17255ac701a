//! Writes lists of calls: from a seed, and round the limits.
use std::collections::BTreeMap;

use crate::boundaries;
use crate::generate::{Generator, Kind, Random};
use crate::number;
use crate::post::Post;
use crate::record::{Answer, Call};
use crate::run::Run;
use crate::write::Writer;

/// Makes calls, one after the other, and hands each on with the records that set the post as it stood before, until it has
/// been enough.
fn make(kind: Kind, seed: Random, mut each: impl FnMut(&Call, &Answer, &[Call]) -> Result<bool, String>) -> Result<(), String> {
    let mut run = Run::new(Post::new());
    let mut generator = Generator::new(seed.state, kind);
    generator.random.narrow = seed.narrow;
    loop {
        let call = generator.next(&run.post);
        let before = run.snapshot();
        let answer = run.call(&call)?;
        generator.note(&call, &answer);
        if each(&call, &answer, &before)? {
            return Ok(());
        }
    }
}

/// A list as it comes.
fn whole(kind: Kind, seed: Random, count: u64, writer: &mut Writer) -> Result<(), String> {
    let mut left = count;
    make(kind, seed, |call, answer, _| {
        writer.call(call);
        left -= (*answer != Answer::Nothing) as u64;
        writer.flush(false)?;
        Ok(left == 0)
    })
}

/// Single calls picked from a list, each on the post that is set before it. No outcome of one state gets more than an eighth.
fn singles(words: &[&str], kind: Kind, seed: Random, count: u64, writer: &mut Writer) -> Result<(), String> {
    let mut left = count;
    let mut seen: BTreeMap<(u8, u8, bool), u64> = BTreeMap::new();
    make(kind, seed, |call, answer, before| {
        if !words.contains(&call.word()) {
            return Ok(false);
        }
        let state = before.iter().find_map(|call| match call {
            Call::State { state, .. } => Some(state.place()),
            _ => None,
        });
        let built = matches!(answer, Answer::Polled(polled) if polled.length > 0);
        let share = seen.entry((state.unwrap(), answer.number(), built)).or_default();
        if *share <= count / 8 {
            *share += 1;
            left -= 1;
            before.iter().for_each(|set| writer.call(set));
            writer.call(call);
            writer.flush(false)?;
        }
        Ok(left == 0)
    })
}

/// Options read from the replies of a list.
fn options(seed: Random, count: u64, writer: &mut Writer) -> Result<(), String> {
    let mut left = count as usize;
    make(Kind::Runs, seed, |call, _, _| {
        if let Call::Process { reply, .. } = call {
            let kinds = [53, 54, 1, 3, 6, 51, 58, 59, 100, 101, 0, 255];
            writer.call(&Call::Option { kind: kinds[left % kinds.len()], reply: reply.clone() });
            left -= 1;
            writer.flush(false)?;
        }
        Ok(left == 0)
    })
}

pub fn generate(kind: &str, seed: &str, count: &str, narrow: bool) -> Result<(), String> {
    let (seed, count) = (Random { state: number(seed)?, narrow }, number(count)?);
    if count == 0 {
        return Ok(());
    }
    let mut writer = Writer { out: vec![] };
    let mut halves = |words: &[&str]| {
        singles(words, Kind::Runs, seed, count.div_ceil(2), &mut writer)?;
        if count > 1 { singles(words, Kind::States, seed, count / 2, &mut writer) } else { Ok(()) }
    };
    match kind {
        "runs" => whole(Kind::Runs, seed, count, &mut writer)?,
        "states" => whole(Kind::States, seed, count, &mut writer)?,
        "broken" => whole(Kind::Broken, seed, count, &mut writer)?,
        "tables" => whole(Kind::Tables, seed, count, &mut writer)?,
        "replies" => halves(&["process", "reset", "get"])?,
        "polls" => halves(&["poll"])?,
        "wire" => options(seed, count, &mut writer)?,
        _ => return Err(format!("`{kind}` is no kind of list")),
    }
    writer.flush(true)
}

pub fn boundaries(kind: &str) -> Result<(), String> {
    let calls = match kind {
        "creations" => boundaries::creations(),
        "replies" => boundaries::replies(),
        "polls" => boundaries::polls(),
        "wire" => boundaries::wire(),
        _ => return Err(format!("`{kind}` is not creations, replies, polls or wire")),
    };
    let mut writer = Writer { out: vec![] };
    calls.iter().for_each(|call| writer.call(call));
    writer.flush(true)
}
