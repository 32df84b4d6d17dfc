//! What a program's standard input and output are joined to.

use crate::compare::Delivery;
use crate::draw::Dice;
use std::fs::{File, OpenOptions};
use std::io::{ErrorKind, Read, Write};
use std::os::unix::fs::OpenOptionsExt;
use std::os::unix::io::OwnedFd;
use std::os::unix::net::UnixStream;
use std::path::PathBuf;
use std::process::{Command, Stdio};

/// Linux's number for opening a pipe that does not wait.
const DO_NOT_WAIT: i32 = 0o4000;

/// Where the bytes come from.
#[derive(Clone, Copy)]
pub enum Input {
    Null,
    File,
    Pipe,
    PipeInPieces,
    /// The last byte comes late.
    LatePipe,
    Closed,
    Directory,
    /// Would block once the bytes are read.
    SilentPipe,
    SilentSocket,
    /// The other end is gone once the bytes are read, and did not read what was sent to it.
    BrokenSocket,
}

/// Where the text goes.
#[derive(Clone, Copy, PartialEq)]
pub enum Sink {
    Pipe,
    Full,
    Closed,
    /// Has room for some 25,000 bytes: a part of a long text.
    Crowded,
    /// Has no room.
    Stuffed,
    /// Nobody reads it.
    Abandoned,
}

/// What a pipe has room for.
const PIPE_ROOM: usize = 65_536;

/// What stands in a stuffed pipe already, and in a crowded one the front of it.
static CROWD: [u8; PIPE_ROOM] = [b'.'; PIPE_ROOM];

/// A name for a file or a pipe that is opened at once and then has none.
fn short_lived_name() -> PathBuf {
    PathBuf::from(format!("target/tests/streams.{}", std::process::id()))
}

fn regular_file(bytes: &[u8]) -> File {
    let name = short_lived_name();
    std::fs::write(&name, bytes).expect("a file");
    let file = File::open(&name).expect("the file");
    std::fs::remove_file(&name).expect("the file's name");
    file
}

/// Both ends of a pipe in one, so that it never comes to its end.
fn silent_pipe(bytes: &[u8]) -> File {
    let name = short_lived_name();
    assert!(Command::new("mkfifo").arg(&name).status().expect("mkfifo").success(), "no pipe is made");
    let mut pipe = OpenOptions::new().read(true).write(true).custom_flags(DO_NOT_WAIT).open(&name).expect("the pipe");
    std::fs::remove_file(&name).expect("the pipe's name");
    pipe.write_all(bytes).expect("room in the pipe");
    pipe
}

/// The program's end, which delivers the bytes, and the other one.
fn socket(bytes: &[u8]) -> (UnixStream, UnixStream) {
    let (theirs, mut ours) = UnixStream::pair().expect("a pair of sockets");
    theirs.set_nonblocking(true).expect("a socket that does not wait");
    ours.write_all(bytes).expect("room in the socket");
    (theirs, ours)
}

impl Input {
    /// The program's standard input, and what has to be kept open meanwhile.
    pub fn open(self, bytes: &[u8]) -> (Stdio, Option<UnixStream>) {
        match self {
            Input::Null | Input::Closed => (Stdio::null(), None),
            Input::File => (regular_file(bytes).into(), None),
            Input::Pipe | Input::PipeInPieces | Input::LatePipe => (Stdio::piped(), None),
            Input::Directory => (File::open("/").expect("a directory").into(), None),
            Input::SilentPipe => (silent_pipe(bytes).into(), None),
            Input::SilentSocket => {
                let (theirs, ours) = socket(bytes);
                (OwnedFd::from(theirs).into(), Some(ours))
            }
            Input::BrokenSocket => {
                let (mut theirs, ours) = socket(bytes);
                theirs.write_all(b"unread").expect("room in the socket");
                drop(ours);
                (OwnedFd::from(theirs).into(), None)
            }
        }
    }

    pub fn delivery(self) -> Delivery {
        match self {
            Input::PipeInPieces => Delivery::InPieces(Dice::new(0, 0)),
            Input::LatePipe => Delivery::LastByteLate,
            _ => Delivery::AtOnce,
        }
    }
}

impl Sink {
    /// What stands there already.
    fn crowd(self) -> &'static [u8] {
        match self {
            Sink::Crowded => &CROWD[..40_000],
            Sink::Stuffed => &CROWD,
            _ => &[],
        }
    }

    /// The program's standard output, and that pipe where something stands in it.
    pub fn open(self) -> (Stdio, Option<File>) {
        match self {
            Sink::Full => (OpenOptions::new().write(true).open("/dev/full").expect("/dev/full").into(), None),
            Sink::Abandoned => (OwnedFd::from(UnixStream::pair().expect("a pair of sockets").0).into(), None),
            Sink::Pipe | Sink::Closed => (Stdio::piped(), None),
            Sink::Crowded | Sink::Stuffed => {
                let pipe = silent_pipe(self.crowd());
                (pipe.try_clone().expect("the pipe").into(), Some(pipe))
            }
        }
    }

    /// What came into such a pipe.
    pub fn added(self, mut pipe: File) -> Vec<u8> {
        let mut bytes = Vec::new();
        let end = pipe.read_to_end(&mut bytes).expect_err("the pipe never comes to its end");
        assert_eq!(end.kind(), ErrorKind::WouldBlock, "{end}");
        bytes.split_off(self.crowd().len())
    }
}
