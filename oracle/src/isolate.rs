//! Runs the cases in a second process, and starts a new one behind a case that ends it: an allocation that fails, or a full stack.

use std::io::{self, BufReader, Read, Write};
use std::process::{Command, Stdio};
use std::sync::{mpsc, Arc};
use std::time::Duration;

const DIED: u64 = 5;
const PAYLOAD: u64 = 65_536;
/// Address space of a worker, in KiB: an allocation beyond it fails.
const MEMORY: u64 = 4 << 20;
const PATIENCE: Duration = Duration::from_secs(20);

struct Case {
    op: u64,
    payload: Vec<u64>,
}

fn word(from: &mut impl Read) -> Option<u64> {
    let mut bytes = [0; 8];
    from.read_exact(&mut bytes).ok().map(|()| u64::from_le_bytes(bytes))
}

fn case(from: &mut impl Read) -> Option<Case> {
    let op = word(from)?;
    let length = word(from)?;
    let payload = (0..length).map(|_| word(from)).collect::<Option<_>>()?;
    Some(Case { op, payload })
}

fn put(to: &mut impl Write, case: &Case) -> io::Result<()> {
    let mut bytes = Vec::with_capacity(16 + 8 * case.payload.len());
    for w in [case.op, case.payload.len() as u64].iter().chain(&case.payload) {
        bytes.extend(w.to_le_bytes());
    }
    to.write_all(&bytes)?;
    to.flush()
}

/// Answers each case of the standard input, in a thread with a large stack.
pub fn work(answer: impl Fn(u64, &[u64]) -> Vec<u64> + Send + 'static) {
    let all = move || {
        let mut input = BufReader::with_capacity(1 << 16, io::stdin());
        let mut output = io::stdout();
        while let Some(Case { op, payload }) = case(&mut input) {
            let asked = if payload.len() as u64 > PAYLOAD { vec![] } else { answer(op, &payload) };
            put(&mut output, &Case { op, payload: asked }).expect("an open output");
        }
    };
    std::thread::Builder::new().stack_size(crate::guard::stack()).spawn(all).expect("a thread").join().expect("an end");
}

pub fn run() {
    let mut input = BufReader::with_capacity(1 << 16, io::stdin());
    let cases: Arc<Vec<Case>> = Arc::new(std::iter::from_fn(|| case(&mut input)).collect());
    let mut output = io::BufWriter::new(io::stdout());
    let mut done = 0;
    while done < cases.len() {
        let (answers, why) = batch(&cases, done);
        done += answers.len();
        for answer in &answers {
            put(&mut output, answer).expect("an open output");
        }
        if done < cases.len() {
            put(&mut output, &Case { op: cases[done].op, payload: vec![DIED, why] }).expect("an open output");
            done += 1;
        }
    }
}

/// The answers from case `from` on until the worker ends, and why it ended: 1 memory, 2 stack, 3 time, 9 other.
fn batch(cases: &Arc<Vec<Case>>, from: usize) -> (Vec<Case>, u64) {
    let flags: Vec<String> = std::env::args().skip(1).collect();
    let mut worker = Command::new("sh")
        .arg("-c")
        .arg(format!("ulimit -v {MEMORY}; exec \"$0\" --worker \"$@\""))
        .arg(std::env::current_exe().expect("a program"))
        .args(flags)
        .stdin(Stdio::piped())
        .stdout(Stdio::piped())
        .stderr(Stdio::piped())
        .spawn()
        .expect("a worker");
    let mut to = worker.stdin.take().expect("its input");
    let mut out = BufReader::with_capacity(1 << 16, worker.stdout.take().expect("its output"));
    let mut err = worker.stderr.take().expect("its messages");
    let asked = Arc::clone(cases);
    let writer = std::thread::spawn(move || asked[from..].iter().all(|c| put(&mut to, c).is_ok()));
    let (send, receive) = mpsc::channel();
    let reader = std::thread::spawn(move || std::iter::from_fn(|| case(&mut out)).all(|c| send.send(c).is_ok()));
    let messages = std::thread::spawn(move || {
        let mut text = String::new();
        err.read_to_string(&mut text).map(|_| text).unwrap_or_default()
    });
    let mut answers = Vec::new();
    let mut late = false;
    loop {
        match receive.recv_timeout(PATIENCE) {
            Ok(answer) => answers.push(answer),
            Err(mpsc::RecvTimeoutError::Timeout) if !late => {
                late = true;
                worker.kill().expect("a worker to end");
            }
            Err(mpsc::RecvTimeoutError::Timeout) => {}
            Err(mpsc::RecvTimeoutError::Disconnected) => break,
        }
    }
    worker.wait().expect("an ended worker");
    writer.join().ok();
    reader.join().ok();
    let text = messages.join().unwrap_or_default();
    let why = match () {
        () if late => 3,
        () if text.contains("memory allocation") => 1,
        () if text.contains("overflowed its stack") => 2,
        () => 9,
    };
    (answers, why)
}
