//! The library in the process of `rust/host`, for processors that the archive is not made for. The two share a file as
//! memory; `host.c` says how they speak.

use crate::calls::{Answer, Head, Join, Lent, Library, Stored, Text};
use crate::Refusal;
use std::fs::File;
use std::io::{self, Read, Write};
use std::os::unix::fs::FileExt;
use std::path::PathBuf;
use std::process::{Child, ChildStdin, ChildStdout, Command, Stdio};
use std::sync::{Mutex, PoisonError};

/// Each buffer starts at a multiple of a word's bytes.
const ALIGNED: usize = 8;

/// The shared memory is at least so long.
const MEMORY: usize = 1 << 24;

/// Every process of ours has one host, started by its first call.
static HOST: Mutex<Option<Process>> = Mutex::new(None);

/// The library behind that process.
pub struct Host;

/// One argument of a call.
enum Buffer<'a> {
    Bytes(&'a [u8]),
    Words(&'a [u64]),
    Number(usize),
    BytesOut(&'a mut [u8]),
    WordsOut(&'a mut [u64]),
}

use Buffer::{Bytes, BytesOut, Number, Words, WordsOut};

type Answered = Result<Answer, Refusal>;

fn ask(call: u64, mut buffers: Vec<Buffer>) -> Answered {
    let mut host = HOST.lock().unwrap_or_else(PoisonError::into_inner);
    let failed = |error: io::Error| Refusal::unasked(format!("the library's process: {error}"));
    let size: usize = buffers.iter().map(Buffer::size).sum();
    let mut process = match host.take() {
        Some(process) if size <= process.size => process,
        _ => Process::start(size.max(MEMORY)).map_err(failed)?,
    };
    // Where this fails the process is ended, and the next call starts another.
    let answer = process.ask(call, &mut buffers).map_err(failed)?;
    *host = Some(process);
    Ok(answer)
}

struct Process {
    child: Child,
    requests: ChildStdin,
    answers: ChildStdout,
    memory: File,
    /// The length of the shared memory, and where the host has it.
    size: usize,
    base: u64,
}

impl Process {
    fn start(size: usize) -> io::Result<Process> {
        let (path, memory) = shared(size)?;
        let started = Process::with(&path, memory, size);
        // The host has it open; nothing is left behind however this ends.
        std::fs::remove_file(&path)?;
        started
    }

    fn with(path: &PathBuf, memory: File, size: usize) -> io::Result<Process> {
        let mut command = Command::new(env!("RUFFLEKNOLL_EMULATOR"));
        command.arg(env!("RUFFLEKNOLL_HOST")).arg(path);
        let mut child = command.stdin(Stdio::piped()).stdout(Stdio::piped()).spawn()?;
        let requests = child.stdin.take().ok_or(io::ErrorKind::BrokenPipe)?;
        let mut answers = child.stdout.take().ok_or(io::ErrorKind::BrokenPipe)?;
        let [base, _calls] = read_words(&mut answers)?;
        Ok(Process { child, requests, answers, memory, size, base })
    }

    fn ask(&mut self, call: u64, buffers: &mut [Buffer]) -> io::Result<Answer> {
        let (request, places) = self.lend(call, buffers)?;
        self.requests.write_all(&request)?;
        let [number, place, value, used] = read_words(&mut self.answers)?;
        for (buffer, place) in buffers.iter_mut().zip(places) {
            self.take_back(buffer, place)?;
        }
        Ok(Answer { number, place, value, used })
    }

    /// Lays the buffers into the memory; the request, and where each lies.
    fn lend(&self, call: u64, buffers: &[Buffer]) -> io::Result<(Vec<u8>, Vec<u64>)> {
        let mut image = Vec::new();
        let mut request = vec![call];
        let mut places = Vec::new();
        for buffer in buffers {
            places.push(image.len() as u64);
            if let Number(number) = buffer {
                request.push(*number as u64);
                continue;
            }
            request.extend([self.base + image.len() as u64, buffer.length() as u64]);
            image.extend(buffer.content());
            image.resize(image.len().next_multiple_of(ALIGNED), 0);
        }
        self.memory.write_all_at(&image, 0)?;
        request.resize(16, 0);
        Ok((request.iter().flat_map(|word| word.to_le_bytes()).collect(), places))
    }

    fn take_back(&self, buffer: &mut Buffer, place: u64) -> io::Result<()> {
        match buffer {
            BytesOut(bytes) => self.memory.read_exact_at(bytes, place),
            WordsOut(words) => {
                let mut bytes = vec![0; words.len() * 8];
                self.memory.read_exact_at(&mut bytes, place)?;
                words.copy_from_slice(&words_of(&bytes));
                Ok(())
            }
            Bytes(_) | Words(_) | Number(_) => Ok(()),
        }
    }
}

impl Drop for Process {
    fn drop(&mut self) {
        // It may have ended by itself, and then there is nothing to end.
        let _ = self.child.kill();
        let _ = self.child.wait();
    }
}

impl Buffer<'_> {
    /// The memory that it takes.
    fn size(&self) -> usize {
        match self {
            Bytes(_) | BytesOut(_) => self.length().next_multiple_of(ALIGNED),
            Words(_) | WordsOut(_) => self.length() * ALIGNED,
            Number(_) => 0,
        }
    }

    fn length(&self) -> usize {
        match self {
            Bytes(bytes) => bytes.len(),
            BytesOut(bytes) => bytes.len(),
            Words(words) => words.len(),
            WordsOut(words) => words.len(),
            Number(_) => 0,
        }
    }

    fn content(&self) -> Vec<u8> {
        let bytes_of = |words: &[u64]| words.iter().flat_map(|word| word.to_le_bytes()).collect();
        match self {
            Bytes(bytes) => bytes.to_vec(),
            BytesOut(bytes) => bytes.to_vec(),
            Words(words) => bytes_of(words),
            WordsOut(words) => bytes_of(words),
            Number(_) => Vec::new(),
        }
    }
}

/// A file of this length that nobody else has, one that never reaches a disk where there are such.
fn shared(size: usize) -> io::Result<(PathBuf, File)> {
    let memory = PathBuf::from("/dev/shm");
    let directory = if memory.is_dir() { memory } else { std::env::temp_dir() };
    let own = std::process::id();
    for attempt in 0..100 {
        let path = directory.join(format!("ruffleknoll-{own}-{attempt}"));
        match File::options().read(true).write(true).create_new(true).open(&path) {
            Ok(file) => {
                file.set_len(size as u64)?;
                return Ok((path, file));
            }
            Err(error) if error.kind() == io::ErrorKind::AlreadyExists => {}
            Err(error) => return Err(error),
        }
    }
    Err(io::Error::other(format!("no room for a file in {}", directory.display())))
}

fn words_of(bytes: &[u8]) -> Vec<u64> {
    let word = |part: &[u8]| part.iter().rev().fold(0, |word, &byte| word << 8 | u64::from(byte));
    bytes.chunks_exact(8).map(word).collect()
}

fn read_words<const N: usize>(from: &mut impl Read) -> io::Result<[u64; N]> {
    let mut bytes = vec![0; 8 * N];
    from.read_exact(&mut bytes)?;
    let mut words = [0; N];
    words.copy_from_slice(&words_of(&bytes));
    Ok(words)
}

fn lent<'a>(table: Lent<'a>) -> [Buffer<'a>; 2] {
    [Words(table.columns), Words(table.rows)]
}

fn head<'a>(head: Head<'a>) -> [Buffer<'a>; 2] {
    [Bytes(head.name), Words(head.columns)]
}

fn text<'a>(text: Text<'a>) -> [Buffer<'a>; 2] {
    [BytesOut(text.bytes), Number(text.used)]
}

fn stored<'a>(text: Stored<'a>) -> [Buffer<'a>; 2] {
    [Bytes(text.bytes), Number(text.used)]
}

/// The arguments of a call, in the header's order.
macro_rules! arguments {
    ($($part:expr),+ $(,)?) => {{
        let mut all = Vec::new();
        $(all.extend($part);)+
        all
    }};
}

/// By the call numbers of docs/CASES.md.
impl Library for Host {
    fn earlier(&self, columns: &[u64], text: Stored, first: &[u64], second: &[u64]) -> Answered {
        ask(17, arguments!([Words(columns)], stored(text), [Words(first), Words(second)]))
    }

    fn evaluate(&self, condition: &[u8], row: &[u64], lent: Text) -> Answered {
        ask(18, arguments!([Bytes(condition), Words(row)], text(lent)))
    }

    fn fold(&self, condition: &[u8], lent: Text, output: &mut [u8]) -> Answered {
        ask(19, arguments!([Bytes(condition)], text(lent), [BytesOut(output)]))
    }

    fn bind(&self, named: &[u8], columns: &[u64], text: Stored, output: &mut [u8]) -> Answered {
        ask(20, arguments!([Bytes(named), Words(columns)], stored(text), [BytesOut(output)]))
    }

    fn with(&self, old: &[u8], new: &[u8], text: Stored, output: &mut [u8]) -> Answered {
        ask(21, arguments!([Bytes(old), Bytes(new)], stored(text), [BytesOut(output)]))
    }

    fn print(&self, condition: &[u8], text: Stored, output: &mut [u8]) -> Answered {
        ask(22, arguments!([Bytes(condition)], stored(text), [BytesOut(output)]))
    }

    fn join_columns(
        &self,
        join: Join,
        left: Head,
        right: Head,
        lent: Text,
        output: &mut [u64],
    ) -> Answered {
        let call = if join == Join::Inner { 23 } else { 24 };
        ask(call, arguments!(head(left), head(right), text(lent), [WordsOut(output)]))
    }

    fn select(
        &self,
        table: Lent,
        list: &[u64],
        condition: &[u8],
        room: Text,
        output: &mut [u64],
    ) -> Answered {
        let given = [Words(list), Bytes(condition)];
        ask(25, arguments!(lent(table), given, text(room), [WordsOut(output)]))
    }

    fn join(
        &self,
        join: Join,
        [left, right]: [Lent; 2],
        condition: &[u8],
        room: Text,
        output: &mut [u64],
    ) -> Answered {
        let call = if join == Join::Inner { 26 } else { 27 };
        let given = [Bytes(condition)];
        ask(call, arguments!(lent(left), lent(right), given, text(room), [WordsOut(output)]))
    }

    fn delete(&self, table: Lent, condition: &[u8], room: Text, output: &mut [u64]) -> Answered {
        ask(28, arguments!(lent(table), [Bytes(condition)], text(room), [WordsOut(output)]))
    }

    fn update(
        &self,
        table: Lent,
        sets: &[u64],
        condition: &[u8],
        room: Text,
        output: &mut [u64],
    ) -> Answered {
        let given = [Words(sets), Bytes(condition)];
        ask(29, arguments!(lent(table), given, text(room), [WordsOut(output)]))
    }

    fn insert(&self, table: Lent, new: &[u64], text: Stored, output: &mut [u64]) -> Answered {
        ask(30, arguments!(lent(table), [Words(new)], stored(text), [WordsOut(output)]))
    }
}
