//! The findings call in a process of its own, which ends itself where one call takes too long: a thread could not be ended,
//! and no process goes on where the one that started it is gone.
use std::io::{BufRead, BufReader, Read, Write, stdin, stdout};
use std::os::unix::process::ExitStatusExt;
use std::process::{Child, ChildStdin, ChildStdout, Command, ExitCode, Stdio};
use std::time::{Duration, Instant};

use bilzarko::Finding;

use crate::ours::Buffers;
use crate::settings::Settings;

/// How long a call may take, in seconds.
pub const DEADLINE: u32 = 2;
/// The least time of so many turns counts, and of more until they took so long together; of one turn, where that takes
/// longer than `LONG`.
const TURNS: usize = 7;
const TOGETHER: Duration = Duration::from_micros(500);
const LONG: Duration = Duration::from_millis(50);
/// The command's argument by which a process serves.
pub const SERVES: &str = "worker";
/// The signal of `alarm`.
const ALARM: i32 = 14;

// The system's: a signal after so many seconds, which ends the process. 0 takes it back.
unsafe extern "C" {
    safe fn alarm(seconds: u32) -> u32;
}

/// What lints 1 and 2 list of a law.
#[derive(Clone, Copy, Debug, Default, PartialEq)]
pub struct Listed {
    /// The number of the refusal, or 0.
    pub refusal: u32,
    pub dead: u32,
    pub by_formats: u32,
    pub by_literals: u32,
}

pub struct Worker {
    child: Child,
    laws: ChildStdin,
    answers: BufReader<ChildStdout>,
}

impl Worker {
    pub fn new() -> Worker {
        let own = std::env::current_exe().expect("the program has a path");
        let mut child = Command::new(own)
            .args(["families", SERVES])
            .stdin(Stdio::piped())
            .stdout(Stdio::piped())
            .spawn()
            .expect("the program starts again");
        let laws = child.stdin.take().expect("the input is a pipe");
        let answers = child.stdout.take().expect("the output is a pipe");
        Worker {
            child,
            laws,
            answers: BufReader::new(answers),
        }
    }

    /// The time of a findings call and what it lists, or nothing where it takes too long.
    pub fn call(&mut self, law: &[u8]) -> Option<(Duration, Listed)> {
        let length = law.len() as u32;
        let sent = self.laws.write_all(&length.to_le_bytes());
        sent.and_then(|()| self.laws.write_all(law))
            .expect("the process reads laws");
        let mut line = String::new();
        let read = self.answers.read_line(&mut line);
        if read.expect("the process answers") > 0 {
            return Some(read_answer(line.trim_end()));
        }
        let status = self.child.wait().expect("the process ends");
        assert_eq!(status.signal(), Some(ALARM), "the findings call: {status}");
        *self = Worker::new();
        None
    }
}

impl Drop for Worker {
    fn drop(&mut self) {
        // It may have ended, which is as well.
        self.child.kill().ok();
        self.child.wait().ok();
    }
}

fn read_answer(line: &str) -> (Duration, Listed) {
    let numbers: Vec<u64> = line
        .split(' ')
        .map(|word| word.parse().expect("an answer has numbers"))
        .collect();
    let [nanoseconds, refusal, dead, by_formats, by_literals] = numbers[..] else {
        panic!("an answer has five numbers: {line}");
    };
    let listed = Listed {
        refusal: refusal as u32,
        dead: dead as u32,
        by_formats: by_formats as u32,
        by_literals: by_literals as u32,
    };
    (Duration::from_nanos(nanoseconds), listed)
}

/// The other side: reads laws until there are no more, and answers each.
pub fn serve() -> ExitCode {
    let mut buffers = Buffers::new();
    let mut laws = stdin().lock();
    let mut length = [0; 4];
    while laws.read_exact(&mut length).is_ok() {
        let mut law = vec![0; u32::from_le_bytes(length) as usize];
        laws.read_exact(&mut law).expect("a law follows its length");
        alarm(DEADLINE);
        let (time, listed) = timed(&law, &mut buffers);
        alarm(0);
        let Listed {
            refusal,
            dead,
            by_formats,
            by_literals,
        } = listed;
        let nanoseconds = time.as_nanos();
        println!("{nanoseconds} {refusal} {dead} {by_formats} {by_literals}");
        stdout().flush().expect("the answer is read");
    }
    ExitCode::SUCCESS
}

fn timed(law: &[u8], buffers: &mut Buffers) -> (Duration, Listed) {
    let settings = Settings::strict().ours();
    let mut least = Duration::MAX;
    let mut listed = Listed::default();
    let (mut turns, began) = (0, Instant::now());
    while turns < TURNS || began.elapsed() < TOGETHER {
        turns += 1;
        let start = Instant::now();
        let answer = bilzarko::findings(&settings, law, &mut buffers.store, &mut buffers.words);
        let time = start.elapsed();
        least = least.min(time);
        listed = match answer {
            Ok(count) => counted(&buffers.words[..bilzarko::FINDING_WORDS * count.findings]),
            Err(refusal) => Listed {
                refusal: refusal.number(),
                ..Listed::default()
            },
        };
        if time > LONG {
            break;
        }
    }
    (least, listed)
}

fn counted(words: &[u32]) -> Listed {
    let count = |lint: u32, a: Option<u32>| {
        let fits = |one: &Finding| one.lint.number() == lint && a.is_none_or(|a| a == one.a);
        bilzarko::decode(words).filter(fits).count() as u32
    };
    Listed {
        refusal: 0,
        dead: count(1, None),
        by_formats: count(2, Some(1)),
        by_literals: count(2, Some(2)),
    }
}
