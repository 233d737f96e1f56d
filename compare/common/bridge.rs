//! Our library on another processor: bridge/serve.c under an emulator, asked over pipes.

use std::cell::RefCell;
use std::io::{BufReader, Read, Write};
use std::process::{ChildStdin, ChildStdout, Command, Stdio};

pub const CUT: u32 = 0;
pub const PLAIN: u32 = 1;
pub const PARAGRAPHS: u32 = 2;
pub const STANDARD: u32 = 3;
pub const STORED_CHECK: u32 = 4;
pub const STORED_READ: u32 = 5;
pub const STORED_WRITE: u32 = 6;

/// Bytes of requests that may be sent before their answers are received: they fit the pipe, so that
/// neither end waits for the other. A single request may be larger.
pub const BATCH: usize = 32_000;

/// The numbers of a reading's answer; another function has fewer, and then zeros.
pub type Numbers = [u32; 7];

/// The answer in place of the library's where it wrote outside a room.
pub const WROTE_OUTSIDE: Numbers = [u32::MAX; 7];

/// compare/run names the emulator and the server here, with a space between them.
const COMMAND: &str = "ELDUVARN_BRIDGE";

thread_local! {
    static SERVER: RefCell<Option<Server>> = const { RefCell::new(None) };
}

struct Server {
    requests: ChildStdin,
    answers: BufReader<ChildStdout>,
}

/// Adds a request to others: rooms of such sizes in elements, filled with a junk byte. A writing's
/// first size counts the words at the start of its source that are its blocks, a cutting's second
/// one is the number of its reading; these are no room's.
pub fn request(onto: &mut Vec<u8>, function: u32, source: &[u8], sizes: [usize; 5], junk: u8) {
    let [a, b, c, d, e] = sizes.map(|size| size as u32);
    for number in [function, source.len() as u32, a, b, c, d, e, u32::from(junk)] {
        onto.extend_from_slice(&number.to_le_bytes());
    }
    onto.extend_from_slice(source);
}

pub fn send(requests: &[u8]) {
    with_server(|server| server.requests.write_all(requests).expect("the server listens"));
}

/// The answer to the oldest request, and its rooms.
pub fn receive(words: [&mut [u32]; 4], text: &mut [u8]) -> Numbers {
    with_server(|server| {
        let mut take = |bytes: &mut [u8]| server.answers.read_exact(bytes).expect("an answer");
        // Whether nothing outside a room was written stands before the answer.
        let mut head = [0; size_of::<u32>() + size_of::<Numbers>()];
        take(&mut head);
        let mut buffer = Vec::new();
        for room in words {
            buffer.resize(4 * room.len(), 0);
            take(&mut buffer);
            numbers(&buffer).zip(room).for_each(|(number, word)| *word = number);
        }
        take(text);
        let mut numbers = numbers(&head);
        let guards_hold = numbers.next() == Some(1);
        let answer: Vec<u32> = numbers.collect();
        if guards_hold {
            answer.try_into().expect("as many numbers")
        } else {
            WROTE_OUTSIDE
        }
    })
}

fn with_server<T>(work: impl FnOnce(&mut Server) -> T) -> T {
    SERVER.with_borrow_mut(|server| work(server.get_or_insert_with(start)))
}

/// The server ends by itself when its requests end.
fn start() -> Server {
    let command = std::env::var(COMMAND).expect(COMMAND);
    let mut words = command.split_whitespace();
    let mut child = Command::new(words.next().expect("an emulator"))
        .args(words)
        .stdin(Stdio::piped())
        .stdout(Stdio::piped())
        .spawn()
        .expect("the server starts");
    let requests = child.stdin.take().expect("a pipe");
    let answers = BufReader::with_capacity(1 << 16, child.stdout.take().expect("a pipe"));
    Server { requests, answers }
}

fn numbers(bytes: &[u8]) -> impl Iterator<Item = u32> + '_ {
    bytes.chunks_exact(4).map(|b| u32::from_le_bytes([b[0], b[1], b[2], b[3]]))
}
