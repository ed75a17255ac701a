//! Where the calls of a comparison come from: a seed, or a file. A source gives the same calls each time, so that a list that
//! showed a difference is made again and need not be kept.
use std::fs::File;
use std::io::BufReader;
use std::path::PathBuf;

use crate::generate::{Generator, Kind, Random};
use crate::lines_of;
use crate::plain::Address;
use crate::post::Post;
use crate::read::Fields;
use crate::record::{Answer, Call};
use crate::run::Run;

/// How many calls are made from one seed, and given to one process of the other program.
pub const PART: u64 = 16_000;

/// SplitMix64's step from one state to the next.
const STEP: u64 = 0x9e37_79b9_7f4a_7c15;

pub enum Source {
    Seeded { seed: u64, calls: u64 },
    Recorded(PathBuf),
}

/// What a call is handed to, with the post that is to be asked and the call's line where it was read from one. It gives the
/// answer, or none where it has seen enough.
pub type Each<'a> = dyn FnMut(&mut Run<Post>, &Call, Option<&[u8]>) -> Result<Option<Answer>, String> + 'a;

/// The part of that number, from 0, of so many calls from a seed. Part k has as its own seed what SplitMix64 gives after k
/// others: it depends on nothing else, and two seeds share no part.
pub fn part(seed: u64, calls: u64, k: u64) -> Option<Source> {
    let before = k.checked_mul(PART).filter(|before| *before < calls)?;
    let seed = Random::new(seed.wrapping_add(STEP.wrapping_mul(k))).next();
    Some(Source::Seeded { seed, calls: PART.min(calls - before) })
}

impl Source {
    /// Makes the calls, one after the other, on a post that is emptied first.
    pub fn run(&self, run: &mut Run<Post>, each: &mut Each) -> Result<(), String> {
        run.call(&Call::Start { moment: 0, generator: 0 })?;
        match self {
            Source::Recorded(path) => read(path, run, each),
            Source::Seeded { seed, calls } => {
                // As `check` has them, half in runs of fresh clients, and with what looks at its arguments alone.
                let share = |sixteenths: u64| calls * sixteenths / 16;
                let others = [(Kind::States, share(5)), (Kind::Broken, share(1)), (Kind::Tables, share(1))];
                let runs = calls - share(5) - 3 * share(1);
                for (kind, count) in [(Kind::Runs, runs)].into_iter().chain(others) {
                    if !make(*seed, kind, count, run, each)? {
                        return Ok(());
                    }
                }
                arguments_alone(*seed, share(1), run, each)
            }
        }
    }
}

fn read(path: &PathBuf, run: &mut Run<Post>, each: &mut Each) -> Result<(), String> {
    let file = File::open(path).map_err(|e| format!("{}: {e}", path.display()))?;
    let (mut fields, mut going) = (Fields::default(), true);
    lines_of(BufReader::with_capacity(1 << 16, file), |_, line| {
        if going && !line.is_empty() && line[0] != b'#' {
            let call = fields.call(line)?;
            going = each(run, &call, Some(line))?.is_some();
        }
        Ok(())
    })
}

/// Calls of one kind; whether they were wanted to the end.
fn make(seed: u64, kind: Kind, count: u64, run: &mut Run<Post>, each: &mut Each) -> Result<bool, String> {
    let mut generator = Generator::new(seed, kind);
    let mut left = count;
    while left > 0 {
        let call = generator.next(&run.post);
        let Some(answer) = each(run, &call, None)? else { return Ok(false) };
        generator.note(&call, &answer);
        left -= (answer != Answer::Nothing) as u64;
    }
    Ok(true)
}

/// Masks, and options of the replies that a run gets. The run is the Rust's alone: these calls do not look at the post.
fn arguments_alone(seed: u64, count: u64, run: &mut Run<Post>, each: &mut Each) -> Result<(), String> {
    let mut generator = Generator::new(!seed, Kind::Runs);
    let mut random = Random::new(seed);
    let mut left = count;
    while left > 0 {
        let call = generator.next(&run.post);
        if let Call::Start { .. } = call {
            if each(run, &call, None)?.is_none() {
                return Ok(());
            }
            continue;
        }
        let answer = run.call(&call)?;
        generator.note(&call, &answer);
        let Call::Process { reply, .. } = call else { continue };
        let any = random.byte();
        let kind = random.pick(&[53, 54, 1, 3, 6, 51, 58, 59, 100, 101, 0, 255, 12, 52, any, any]);
        for call in [Call::Option { kind, reply }, Call::Mask(mask(&mut random))] {
            if left > 0 {
                left -= 1;
                if each(run, &call, None)?.is_none() {
                    return Ok(());
                }
            }
        }
    }
    Ok(())
}

/// Mostly a mask, or one with a bit that is wrong.
fn mask(random: &mut Random) -> Address {
    let ones = u32::MAX.checked_shl(random.upto(32) as u32).unwrap_or(0);
    match random.below(6) {
        0..=1 => random.address(),
        2..=3 => (ones ^ 1 << random.below(32)).to_be_bytes(),
        _ => ones.to_be_bytes(),
    }
}
