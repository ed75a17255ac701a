//! The other program: it reads calls and writes answers (docs/TRACE.md), and what it writes is compared with the Rust's
//! answers as it comes. Nothing is kept but a few blocks on their way.
use std::io::{Read, Write};
use std::process::{Child, ChildStdin, ChildStdout, Command, Stdio};
use std::sync::atomic::{AtomicBool, AtomicU64, Ordering::Relaxed};
use std::sync::mpsc::{self, Receiver, Sender};
use std::sync::{Arc, Mutex};
use std::thread;
use std::time::{Duration, Instant};

/// How much is handed on at once. The number of blocks on their way has no bound of its own: a program may read many calls,
/// where their answers are short, before it writes. What it takes in by a pipe is the bound.
const BLOCK: usize = 1 << 16;

/// How long a process may take to end after it has closed its output.
const GRACE: Duration = Duration::from_secs(1);

/// What a comparison comes to.
#[derive(Clone, Copy, Debug, PartialEq, Eq)]
pub enum Found {
    Equal,
    /// An answer that is not the Rust's, one that is missing, or one too many.
    Differs,
    /// It broke off before it had answered all, and its exit status is not 0.
    Died,
    /// It neither answered nor ended.
    Hangs,
    /// It answered all, and its exit status is not 0.
    Failed,
}

/// What is known of a running comparison from outside.
#[derive(Default)]
pub struct Slot {
    child: Mutex<Option<Child>>,
    /// Which part of the calls it is at.
    pub part: AtomicU64,
    /// How many bytes of the answers to it were equal.
    pub equal: AtomicU64,
    /// Counts whatever happens.
    pub moved: AtomicU64,
    /// How many calls were answered as the Rust does, in all parts.
    pub calls: AtomicU64,
    hung: AtomicBool,
}

impl Slot {
    pub fn running(&self) -> bool {
        self.child.lock().unwrap().is_some()
    }

    /// Ends it, since it has been silent for too long.
    pub fn give_up(&self) {
        self.hung.store(true, Relaxed);
        self.kill();
    }

    pub fn kill(&self) {
        if let Some(child) = self.child.lock().unwrap().as_mut() {
            // It may have ended by itself.
            let _ = child.kill();
        }
    }

    /// Waits for the end; whether the exit status was 0. The lock is not held while it waits, since `kill` wants it.
    fn wait(&self) -> bool {
        loop {
            let mut child = self.child.lock().unwrap();
            let Some(running) = child.as_mut() else { return true };
            if let Ok(Some(status)) = running.try_wait() {
                *child = None;
                return status.success();
            }
            drop(child);
            thread::sleep(Duration::from_micros(50));
        }
    }
}

struct Block {
    answers: Vec<u8>,
    calls: u64,
}

/// One process of the other program, and the thread that reads what it writes.
pub struct Stream {
    slot: Arc<Slot>,
    stdin: ChildStdin,
    blocks: Sender<Block>,
    found: Receiver<Found>,
}

/// Starts the program; what it says of errors goes where it is told.
pub fn start(program: &str, errors: Stdio) -> Result<Child, String> {
    let mut command = Command::new(program);
    command.stdin(Stdio::piped()).stdout(Stdio::piped()).stderr(errors);
    command.spawn().map_err(|e| format!("{program} cannot be run: {e}"))
}

impl Stream {
    pub fn start(program: &str, slot: &Arc<Slot>) -> Result<Stream, String> {
        let mut child = start(program, Stdio::null())?;
        let (stdin, stdout) = (child.stdin.take().unwrap(), child.stdout.take().unwrap());
        slot.equal.store(0, Relaxed);
        slot.hung.store(false, Relaxed);
        *slot.child.lock().unwrap() = Some(child);
        let (blocks, from) = mpsc::channel();
        let (to, found) = mpsc::channel();
        let reading = slot.clone();
        thread::spawn(move || {
            let found = compare(stdout, from, &reading);
            if found == Found::Differs {
                // Whoever writes to it is to see that it is over.
                reading.kill();
            }
            let _ = to.send(found);
        });
        Ok(Stream { slot: slot.clone(), stdin, blocks, found })
    }

    /// Hands calls on, once they are many or all are wanted; whether there is somebody to take them. The answers go first:
    /// the thread that reads never waits for answers while it has not read what was written.
    pub fn hand_on(&mut self, calls: &mut Vec<u8>, answers: &mut Vec<u8>, count: &mut u64, all: bool) -> bool {
        if !all && calls.len() < BLOCK && answers.len() < BLOCK {
            return true;
        }
        let block = Block { answers: std::mem::replace(answers, Vec::with_capacity(BLOCK + BLOCK / 4)), calls: *count };
        *count = 0;
        if self.blocks.send(block).is_err() || self.stdin.write_all(calls).is_err() {
            return false;
        }
        calls.clear();
        self.slot.moved.fetch_add(1, Relaxed);
        true
    }

    /// No more calls: what came of it.
    pub fn end(self) -> Found {
        let Stream { slot, stdin, blocks, found } = self;
        drop((stdin, blocks));
        let found = found.recv().unwrap_or(Found::Died);
        let well = slot.wait();
        match found {
            Found::Differs => Found::Differs,
            _ if slot.hung.load(Relaxed) => Found::Hangs,
            Found::Died if well => Found::Differs,
            Found::Equal if !well => Found::Failed,
            found => found,
        }
    }
}

/// Compares what comes with the answers.
fn compare(mut stdout: ChildStdout, blocks: Receiver<Block>, slot: &Slot) -> Found {
    let mut buffer = vec![0; BLOCK];
    let (mut from, mut to) = (0, 0);
    for block in blocks {
        let mut rest = &block.answers[..];
        while !rest.is_empty() {
            if from == to {
                match stdout.read(&mut buffer) {
                    Ok(0) | Err(_) => return Found::Died,
                    Ok(read) => (from, to) = (0, read),
                }
            }
            let count = rest.len().min(to - from);
            let (ours, theirs) = (&buffer[from..from + count], &rest[..count]);
            if ours != theirs {
                let same = ours.iter().zip(theirs).take_while(|(a, b)| a == b).count();
                slot.equal.fetch_add(same as u64, Relaxed);
                return Found::Differs;
            }
            slot.equal.fetch_add(count as u64, Relaxed);
            slot.moved.fetch_add(1, Relaxed);
            from += count;
            rest = &rest[count..];
        }
        slot.calls.fetch_add(block.calls, Relaxed);
    }
    match stdout.read(&mut buffer) {
        Ok(0) | Err(_) if from == to => Found::Equal,
        _ => Found::Differs,
    }
}

/// Gives a short list to a fresh process of the program. Gives what it wrote, of which as much is read as tells whether it is
/// more than the answers, and what came of it.
pub fn once(program: &str, calls: &[u8], answers: &[u8], patience: Duration, errors: Stdio) -> Result<(Vec<u8>, Found), String> {
    let mut child = start(program, errors)?;
    let (mut stdin, stdout) = (child.stdin.take().unwrap(), child.stdout.take().unwrap());
    let calls = calls.to_vec();
    thread::spawn(move || {
        // It may end before it has read all.
        let _ = stdin.write_all(&calls);
    });
    let (send, written) = mpsc::channel();
    let most = (answers.len() + BLOCK) as u64;
    thread::spawn(move || {
        let mut read = vec![];
        let _ = stdout.take(most).read_to_end(&mut read);
        let _ = send.send(read);
    });
    let got = written.recv_timeout(patience);
    let well = end(child, if got.is_ok() { GRACE } else { Duration::ZERO });
    let Ok(got) = got else { return Ok((vec![], Found::Hangs)) };
    let found = match () {
        _ if got == answers && well => Found::Equal,
        _ if got == answers => Found::Failed,
        _ if answers.starts_with(&got) && !well => Found::Died,
        _ => Found::Differs,
    };
    Ok((got, found))
}

/// Waits so long for a process, and then ends it; whether its exit status was 0.
fn end(mut child: Child, grace: Duration) -> bool {
    let begun = Instant::now();
    loop {
        match child.try_wait() {
            Ok(Some(status)) => return status.success(),
            _ if begun.elapsed() < grace => thread::sleep(Duration::from_micros(50)),
            _ => {
                let _ = child.kill();
                return child.wait().is_ok_and(|status| status.success());
            }
        }
    }
}
