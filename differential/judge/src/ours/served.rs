//! Our library in a program of its own under valgrind (`memory_served.c`): each call goes there and comes
//! back through pipes. The calls of a thread go to the program that it has started.

use std::{
    cell::RefCell,
    fs,
    io::{self, Read, Write},
    process::{self, Child, ChildStdin, ChildStdout, Command, ExitStatus, Stdio},
};

use crate::{
    library::{Library, Queries},
    random,
};

/// Our functions by the program's numbers; behind them it has lowerings with a fault.
const LOWER: u64 = 0;
const LIVE: u64 = 1;
const HISTORY: u64 = 2;
const CONTAINS_NODE: u64 = 3;
pub const FAULTS: u64 = 4;

/// The level in a call that has none.
pub const NO_LEVEL: u32 = 0;

/// The status with which valgrind ends if it has found something.
pub const FOUND: i32 = 9;

/// Red zones of 16 records of a log stand before and behind each slice.
const OPTIONS: [&str; 5] =
    ["-q", "--error-exitcode=9", "--leak-check=no", "--redzone-size=1024", "--vgdb=no"];

/// A request has a function, a level and five lengths before its slices, a reply the two numbers of the answer.
const HEAD: usize = 7 * size_of::<u64>();
const ANSWER: usize = 2 * size_of::<u32>();

thread_local! {
    static SERVED: RefCell<Option<Served>> = const { RefCell::new(None) };
}

/// Our functions under valgrind; `serving` must have started the program.
pub const LIBRARY: Library = Library {
    lower: |records, out, bytes| {
        let read = [bytes_of(&records.words), &records.text, bytes_of(&records.starts)];
        call(LOWER, records.level, &read, &mut [bytes_of_mut(out), bytes])
    },
    queries: Queries {
        live: |words, bytes, base, list| {
            call(LIVE, NO_LEVEL, &[bytes_of(words), bytes, base], &mut [bytes_of_mut(list), &mut []])
        },
        history: |words, bytes, path, list| {
            call(HISTORY, NO_LEVEL, &[bytes_of(words), bytes, path], &mut [bytes_of_mut(list), &mut []])
        },
        contains_node: |words, bytes, path| {
            call(CONTAINS_NODE, NO_LEVEL, &[bytes_of(words), bytes, path], &mut [&mut [], &mut []])
        },
    },
};

/// The bytes of words, as they lie in memory.
fn bytes_of(words: &[u32]) -> &[u8] {
    // SAFETY: each word is four bytes, and any bytes are bytes.
    unsafe { words.align_to().1 }
}

fn bytes_of_mut(words: &mut [u32]) -> &mut [u8] {
    // SAFETY: as above, and any four bytes are a word.
    unsafe { words.align_to_mut().1 }
}

/// A call of this thread's program; what goes wrong there ends the run.
fn call(function: u64, level: u32, read: &[&[u8]], written: &mut [&mut [u8]]) -> (u32, u32) {
    SERVED.with_borrow_mut(|served| {
        let served = served.as_mut().expect("the program has been started");
        served.ask(function, level, read, written).unwrap_or_else(|fault| served.stop(&fault))
    })
}

/// Runs a part with `LIBRARY`: what it gives, and how many calls went through.
pub fn serving<T>(program: &str, part: &'static str, run: impl FnOnce() -> T) -> Result<(T, u64), String> {
    SERVED.set(Some(Served::start(program, part, Stdio::inherit())?));
    let given = run();
    let served = SERVED.take().expect("started above");
    let calls = served.calls;
    match served.end() {
        Ok((status, _)) if status.success() => Ok((given, calls)),
        Ok((status, _)) => Err(format!("{part}: behind the last call valgrind ended with {status}")),
        Err(error) => Err(format!("{part}: {error}")),
    }
}

/// The program under valgrind, and what last went there and came back.
pub struct Served {
    program: String,
    /// What it is started for.
    part: &'static str,
    child: Child,
    input: ChildStdin,
    output: ChildStdout,
    calls: u64,
    request: Vec<u8>,
    reply: Vec<u8>,
}

impl Served {
    pub fn start(program: &str, part: &'static str, errors: Stdio) -> Result<Self, String> {
        let mut command = Command::new("valgrind");
        command.args(OPTIONS).arg(program).stdin(Stdio::piped()).stdout(Stdio::piped()).stderr(errors);
        let mut child = command.spawn().map_err(|error| format!("valgrind: {error}"))?;
        let (input, output) = (child.stdin.take().expect("a pipe"), child.stdout.take().expect("a pipe"));
        let (program, request, reply) = (program.to_owned(), Vec::new(), Vec::new());
        Ok(Self { program, part, child, input, output, calls: 0, request, reply })
    }

    /// Asks for a call: slices that are only read, then those that are written, five in all.
    pub fn ask(
        &mut self,
        function: u64,
        level: u32,
        read: &[&[u8]],
        written: &mut [&mut [u8]],
    ) -> Result<(u32, u32), String> {
        self.calls += 1;
        self.put(function, level, read, written);
        self.reply.resize(ANSWER + self.request.len() - HEAD, 0);
        let through =
            self.input.write_all(&self.request).and_then(|()| self.output.read_exact(&mut self.reply));
        if through.is_err() {
            return Err(match self.child.wait() {
                Ok(status) => format!("valgrind ended with {status} in place of an answer"),
                Err(error) => error.to_string(),
            });
        }
        let (answer, slices) = self.reply.split_at(ANSWER);
        let (kept, mut left) = slices.split_at(read.iter().map(|slice| slice.len()).sum());
        if *kept != self.request[HEAD..][..kept.len()] {
            return Err("a slice that is only read was changed".to_owned());
        }
        for slice in written {
            let (now, behind) = left.split_at(slice.len());
            slice.copy_from_slice(now);
            left = behind;
        }
        let word = |at: usize| u32::from_ne_bytes(answer[at..at + 4].try_into().expect("four bytes"));
        Ok((word(0), word(4)))
    }

    /// Puts a request together.
    fn put(&mut self, function: u64, level: u32, read: &[&[u8]], written: &[&mut [u8]]) {
        let slices = || read.iter().copied().chain(written.iter().map(|slice| &**slice));
        let lengths = slices().map(|slice| slice.len() as u64);
        self.request.clear();
        self.request.extend([function, level.into()].into_iter().chain(lengths).flat_map(u64::to_ne_bytes));
        assert_eq!(self.request.len(), HEAD, "a call has five slices");
        slices().for_each(|slice| self.request.extend_from_slice(slice));
    }

    /// Ends it: its status, and what it said where its errors are piped.
    pub fn end(mut self) -> io::Result<(ExitStatus, String)> {
        drop(self.input);
        let mut said = Vec::new();
        if let Some(errors) = &mut self.child.stderr {
            errors.read_to_end(&mut said)?;
        }
        Ok((self.child.wait()?, String::from_utf8_lossy(&said).into_owned()))
    }

    /// Ends the run over a call: says in which case it was, and keeps the request in a file.
    fn stop(&mut self, fault: &str) -> ! {
        let Self { program, part, calls, .. } = self;
        let seed = random::seed_at_hand().map_or("no seed".to_owned(), |seed| format!("seed {seed}"));
        eprintln!("{part}, {seed}, call {calls}: {fault}");
        let file = format!("{program}.request");
        match fs::write(&file, &self.request) {
            Ok(()) => eprintln!("to ask it again: valgrind {program} < {file} > /dev/null"),
            Err(error) => eprintln!("{file}: {error}"),
        }
        process::exit(1)
    }
}
