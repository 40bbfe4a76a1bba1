//! The library in a process of its own, behind pipes: where it can't be linked, since it is compiled
//! for another processor. `driver.c` is the other end, and has the same layout.

use crate::call::{Answer, Call, Form, Layout, Replies, Room};
use crate::ours::Ours;
use std::io::{self, Read, Write};
use std::process::{Child, ChildStdin, ChildStdout, Command, Stdio};

/// The word that the driver greets with.
const HELLO: u32 = 0x3454_4343;

pub struct Piped {
    child: Child,
    to: ChildStdin,
    from: ChildStdout,
}

impl Piped {
    /// Starts the command that `COMPARE_DRIVER` names.
    pub fn start() -> io::Result<Self> {
        let command =
            std::env::var_os("COMPARE_DRIVER").ok_or_else(|| io::Error::other("COMPARE_DRIVER names no driver: use compare/run"))?;
        let mut child = Command::new(command).stdin(Stdio::piped()).stdout(Stdio::piped()).spawn()?;
        let to = child.stdin.take().expect("it is piped");
        let mut from = child.stdout.take().expect("it is piped");
        let mut hello = [0; 4];
        from.read_exact(&mut hello)?;
        if word(&hello, 0) != HELLO {
            return Err(io::Error::other("the driver does not greet as it should"));
        }
        Ok(Piped { child, to, from })
    }
}

impl Ours for Piped {
    /// After a batch without an answer there is a new process, so that the run can go on.
    fn answer(&mut self, calls: &[Call]) -> io::Result<Replies> {
        let replies = self.ask(calls);
        if replies.is_err() {
            *self = Piped::start()?;
        }
        replies
    }
}

impl Piped {
    /// The driver reads a batch to its end before it writes, so neither side waits for the other.
    fn ask(&mut self, calls: &[Call]) -> io::Result<Replies> {
        let request = request_of(calls);
        self.to.write_all(&request)?;
        self.to.flush()?;
        let mut reply = vec![0; calls.iter().map(reply_size).sum()];
        self.from.read_exact(&mut reply)?;
        Ok(replies_of(calls, &reply))
    }
}

impl Drop for Piped {
    fn drop(&mut self) {
        // killed rather than asked: it may be in a call that does not end
        let _ = self.child.kill();
        let _ = self.child.wait();
    }
}

fn padded(size: usize) -> usize {
    size.div_ceil(8) * 8
}

fn reply_size(call: &Call) -> usize {
    size_of::<Answer>() + padded(4 * call.room.words()) + padded(call.room.bytes())
}

/// A batch: its length in bytes, that of its replies, the number of calls; then the calls.
fn request_of(calls: &[Call]) -> Vec<u8> {
    let mut out = vec![0; 24];
    for call in calls {
        put_call(&mut out, call);
    }
    let size = out.len() as u64 - 24;
    let reply: usize = calls.iter().map(reply_size).sum();
    out[0..8].copy_from_slice(&size.to_le_bytes());
    out[8..16].copy_from_slice(&(reply as u64).to_le_bytes());
    out[16..24].copy_from_slice(&(calls.len() as u64).to_le_bytes());
    out
}

/// Sixteen words, then the data and the two lists, each padded to eight bytes.
fn put_call(out: &mut Vec<u8>, call: &Call) {
    let ask = call.ask;
    let (changes, ends, bytes) = match call.room {
        Room::Rows { changes, ends, marks } => (changes, ends, marks),
        Room::Bytes(bytes) => (0, 0, bytes),
    };
    let words = [
        form_number(ask.form),
        flags(call),
        ask.settings.columns,
        number(call),
        ask.at as u32,
        (ask.at >> 32) as u32,
        ask.tail as u32,
        (ask.tail as u64 >> 32) as u32,
        ask.src.len() as u32,
        ask.first.len() as u32,
        ask.second.len() as u32,
        changes as u32,
        ends as u32,
        bytes as u32,
        call.fill,
        ask.lead as u32,
    ];
    put_words(out, &words);
    out.extend_from_slice(&ask.src);
    out.resize(padded(out.len()), 0);
    put_words(out, &ask.first);
    put_words(out, &ask.second);
}

fn put_words(out: &mut Vec<u8>, words: &[u32]) {
    for word in words {
        out.extend_from_slice(&word.to_le_bytes());
    }
    out.resize(padded(out.len()), 0);
}

fn form_number(form: Form) -> u32 {
    match form {
        Form::Page(encoding) => encoding.number(),
        Form::ReadLine => 3,
        Form::WriteLine => 4,
        Form::WritePage => 5,
        Form::WriteGroup3(Layout::OneD { .. }) => 6,
        Form::WriteGroup3(Layout::TwoD { .. }) => 7,
    }
}

/// The number of rows of a page; of a Group 3 writer the caller's number.
fn number(call: &Call) -> u32 {
    match call.ask.form {
        Form::WriteGroup3(Layout::OneD { fill, .. }) => fill,
        Form::WriteGroup3(Layout::TwoD { k }) => k,
        _ => call.ask.settings.rows,
    }
}

/// The flags of a page; of a Group 3 writer whether there are EOLs.
fn flags(call: &Call) -> u32 {
    let s = &call.ask.settings;
    let eols = matches!(call.ask.form, Form::WriteGroup3(Layout::OneD { eols: true, .. }));
    let flags = [s.end_of_block, s.end_of_line || eols, s.aligned, s.strict, call.exact, call.plain];
    flags.iter().rev().fold(0, |flags, &flag| flags << 1 | u32::from(flag))
}

fn replies_of(calls: &[Call], reply: &[u8]) -> Replies {
    let mut replies = Replies::default();
    let mut at = 0;
    for call in calls {
        let answer = Answer {
            number: word(reply, at),
            mark: word(reply, at + 4),
            rows: long(reply, at + 8),
            entries: long(reply, at + 16),
            loose: long(reply, at + 24),
            bytes: long(reply, at + 32),
            place: long(reply, at + 40),
        };
        let words_at = at + size_of::<Answer>();
        let bytes_at = words_at + padded(4 * call.room.words());
        let words = reply[words_at..words_at + 4 * call.room.words()].chunks_exact(4).map(|four| word(four, 0));
        replies.keep(answer, words, &reply[bytes_at..bytes_at + call.room.bytes()]);
        at += reply_size(call);
    }
    replies
}

fn long(bytes: &[u8], at: usize) -> u64 {
    u64::from(word(bytes, at)) | u64::from(word(bytes, at + 4)) << 32
}

fn word(bytes: &[u8], at: usize) -> u32 {
    u32::from_le_bytes([bytes[at], bytes[at + 1], bytes[at + 2], bytes[at + 3]])
}
