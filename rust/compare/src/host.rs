//! The archive, in a process of its own that `rust/host/host.c` describes.

use crate::image::{words_in, Argument};
use crate::library::{numbers, Answered, Asked, Library, ARGUMENTS};
use std::fs::File;
use std::io::{self, Read, Write};
use std::os::unix::fs::FileExt;
use std::path::PathBuf;
use std::process::{Child, ChildStdin, ChildStdout, Command, Stdio};

/// The length of the shared memory.
const MEMORY: u64 = 1 << 24;

pub struct Host {
    process: Child,
    requests: ChildStdin,
    answers: ChildStdout,
    memory: Shared,
    /// Where the host has the shared memory.
    base: u64,
    /// A bit for each call number that the archive has.
    has: u64,
}

/// A file that the host maps into its memory.
struct Shared {
    file: File,
    path: PathBuf,
}

impl Shared {
    fn new() -> io::Result<Shared> {
        // A file that never reaches a disk, where there are such.
        let memory = PathBuf::from("/dev/shm");
        let directory = if memory.is_dir() { memory } else { std::env::temp_dir() };
        let path = directory.join(format!("ruffleknoll-compare-{}", std::process::id()));
        let file = File::options().read(true).write(true).create_new(true).open(&path)?;
        let shared = Shared { file, path };
        shared.file.set_len(MEMORY)?;
        Ok(shared)
    }
}

impl Drop for Shared {
    fn drop(&mut self) {
        // Nothing depends on it any more.
        let _ = std::fs::remove_file(&self.path);
    }
}

impl Host {
    /// Starts the host by its command.
    pub fn start(command: &[String]) -> Result<Host, String> {
        let (program, arguments) = command.split_first().ok_or("no host is named")?;
        let told = |error: io::Error| format!("{program}: {error}");
        let memory = Shared::new().map_err(told)?;
        let mut process = Command::new(program)
            .args(arguments)
            .arg(&memory.path)
            .stdin(Stdio::piped())
            .stdout(Stdio::piped())
            .spawn()
            .map_err(told)?;
        let requests = process.stdin.take().ok_or("no way to the host")?;
        let mut answers = process.stdout.take().ok_or("no way from the host")?;
        let [base, has] = read_words(&mut answers).map_err(told)?;
        Ok(Host { process, requests, answers, memory, base, has })
    }

    /// Lends the memory, asks, and takes it back.
    fn exchange(&mut self, request: &[u64], memory: &mut [u8]) -> io::Result<Answered> {
        if memory.len() as u64 > MEMORY {
            return Err(io::Error::other("more than the shared memory holds"));
        }
        self.memory.file.write_all_at(memory, 0)?;
        let request: Vec<u8> = request.iter().flat_map(|word| word.to_le_bytes()).collect();
        self.requests.write_all(&request)?;
        let answered = read_words(&mut self.answers)?;
        self.memory.file.read_exact_at(memory, 0)?;
        Ok(answered)
    }
}

fn read_words<const N: usize>(from: &mut impl Read) -> io::Result<[u64; N]> {
    let mut bytes = vec![0; 8 * N];
    from.read_exact(&mut bytes)?;
    let mut words = [0; N];
    words.copy_from_slice(&words_in(&bytes));
    Ok(words)
}

impl Library for Host {
    fn has(&self, call: u8) -> bool {
        self.has >> call & 1 == 1
    }

    fn ask(&mut self, call: u8, arguments: &[Argument], memory: &mut [u8]) -> Asked {
        let mut request = [0; ARGUMENTS + 1];
        request[0] = call as u64;
        request[1..].copy_from_slice(&numbers(arguments, self.base));
        self.exchange(&request, memory).map_err(|error| {
            let end = self.process.wait().map_or("?".into(), |status| status.to_string());
            format!("{error}; the host ended: {end}")
        })
    }
}
