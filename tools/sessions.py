"""Sessions for a Python program, of the program without a proof: they are served on a socket while the Python program runs.

A copy of the crates has a domrun that holds sessions in place of running scripts. It reads requests from its first pipe: a line with
a verb, the number of a session and the number of bytes, and then the bytes. To the second it answers as it answers scripts (serving.py),
with the status that the library for C has for the call. Each connection to the socket is a session, with the same requests and answers,
but without the number.
"""
import os
import selectors
import socket
import subprocess
import sys
from collections.abc import Callable
from dataclasses import dataclass
from typing import BinaryIO

import serving
import unproved

PACKAGE = os.path.join(unproved.ROOT, "bindings", "python")
OUTPUT = None  # where a Python program writes: None is this one's standard output
SERVING = r"""use dom_engine::{Session, lines_seen_by};
use dom_reader::owner_of;
use std::alloc::{AllocError, Global};
use std::fs::File;
use std::io::{BufRead, BufReader, ErrorKind, Read, Write};
use std::{env, fs, io};

#[derive(Drop)]
struct Held {
    session: Session,
    text: Vec<u8>,
}

pub fn serve(rt: &HostRuntime) -> io::Result<()> {
    let words: Vec<String> = env::args(rt)?.collect(rt.alloc())?;
    if words.len() != 3 {
        return Err(ErrorKind::InvalidInput.into());
    }
    let mut requests = BufReader::new(rt.alloc(), File::open(rt, words[1].as_str())?)?;
    let mut answers = fs::OpenOptions::new().write(true).open(rt, words[2].as_str())?;
    let mut sessions: Vec<Option<Held>> = Vec::new(rt.alloc());
    for _ in 0..u64::MAX {
        if !serve_one(rt, &mut sessions, &mut requests, &mut answers)? {
            break;
        }
    }
    Ok(())
}

fn serve_one(rt: &HostRuntime, sessions: &mut Vec<Option<Held>>, requests: &mut BufReader<File>, answers: &mut File) -> io::Result<bool> {
    let mut head = String::new(rt.alloc());
    if requests.read_line(&mut head)? == 0 {
        return Ok(false);
    }
    let mut words: Vec<String> = Vec::new(rt.alloc());
    for word in head.trim_end().split(' ') {
        words.push(String::from_str(rt.alloc(), word)?)?;
    }
    let (Ok(number), Ok(count)) = (words[1].parse::<usize>(), words[2].parse::<usize>()) else {
        return Err(ErrorKind::InvalidInput.into());
    };
    let mut bytes = vec![in rt.alloc(); 0u8; count]?;
    requests.read_exact(&mut bytes)?;
    while sessions.len() <= number {
        sessions.push(None)?;
    }
    let (status, text) = answer(rt.alloc(), words[0].as_str(), &mut sessions[number], &bytes);
    let head = format!(in rt.alloc(); "{status} {} \n", text.len())?;
    answers.write_all(head.as_bytes())?;
    answers.write_all(text.as_slice())?;
    answers.flush()?;
    Ok(true)
}

fn answer(alloc: Global, verb: &str, place: &mut Option<Held>, bytes: &[u8]) -> (u8, Vec<u8>) {
    match done(alloc, verb, place, bytes) {
        Ok(Some(text)) => (0, text),
        Ok(None) => (4, Vec::new(alloc)),
        Err(_) => (2, Vec::new(alloc)),
    }
}

fn done(alloc: Global, verb: &str, place: &mut Option<Held>, bytes: &[u8]) -> Result<Option<Vec<u8>>, AllocError> {
    if verb == "open" {
        *place = Some(Held { session: Session::new(alloc)?, text: Vec::new(alloc) });
        return Ok(Some(Vec::new(alloc)));
    }
    if verb == "drop" {
        *place = None;
        return Ok(Some(Vec::new(alloc)));
    }
    let Some(held) = place else {
        return Err(AllocError);
    };
    if verb == "view" {
        let Some(owner) = owner_of(bytes) else {
            return Ok(None);
        };
        return Ok(Some(lines_seen_by(alloc, owner, &held.text)?));
    }
    let text = if verb == "line" { held.session.line(bytes)? } else { held.session.finish()? };
    held.text = text.clone()?;
    Ok(Some(text))
}
"""


def fill(folder: str) -> str:
    """Copies the crates into a folder, with a domrun that holds sessions, and gives the folder of that crate."""
    place = serving.fill(folder)
    with open(os.path.join(place, "src", "serving.rt"), "w", encoding="utf-8") as file:
        file.write(SERVING)
    path = os.path.join(folder, "crates.txt")
    with open(path, encoding="utf-8") as file:
        text = file.read()
    with open(path, "w", encoding="utf-8") as file:
        file.write(text.replace("\ndomrun:", "\ndomrun: dom_reader", 1))
    return place


@dataclass
class Connection:
    """A session: its number in the program, and what its Python program writes and reads."""

    number: int
    socket: socket.socket
    stream: BinaryIO

    def close(self) -> None:
        """Ends the connection."""
        self.stream.close()
        self.socket.close()


class Server:
    """Serves sessions on a socket. Each connection is one, which is freed at the connection's end."""

    def __init__(self, program: unproved.Program) -> None:
        self.program = program
        self.path = os.path.join(program.room.name, "sessions")
        self.numbers: set[int] = set()
        self.selector = selectors.DefaultSelector()
        self.listening = socket.socket(socket.AF_UNIX)
        self.listening.bind(self.path)
        self.listening.listen()
        self.selector.register(self.listening, selectors.EVENT_READ)

    def serve(self, seconds: float) -> None:
        """Answers the requests that there are; if there is none, it waits so many seconds for one."""
        for key, _ in self.selector.select(seconds):
            if key.data is None:
                self.accept()
            elif not self.answer(key.data):
                self.drop(key.data)

    def accept(self) -> None:
        """Opens a session for a new connection."""
        made, _ = self.listening.accept()
        number = next(it for it in range(len(self.numbers) + 1) if it not in self.numbers)
        self.numbers.add(number)
        self.program.ask(f"open {number} 0\n".encode("ascii"))
        self.selector.register(made, selectors.EVENT_READ, Connection(number, made, made.makefile("rwb")))

    def answer(self, connection: Connection) -> bool:
        """Answers one request, and gives whether there was one before the connection's end."""
        try:
            head = connection.stream.readline()
            if not head:
                return False
            verb, count = head.decode("ascii").split()
            request = f"{verb} {connection.number} {count}\n".encode("ascii") + connection.stream.read(int(count))
            status, text, _ = self.program.ask(request)
            connection.stream.write(f"{status} {len(text)}\n".encode("ascii") + text)
            connection.stream.flush()
        except ConnectionError:
            return False
        return True

    def drop(self, connection: Connection) -> None:
        """Frees a session."""
        self.selector.unregister(connection.socket)
        connection.close()
        self.program.ask(f"drop {connection.number} 0\n".encode("ascii"))
        self.numbers.remove(connection.number)

    def close(self) -> None:
        """Ends all connections."""
        for key in list(self.selector.get_map().values()):
            if key.data is not None:
                key.data.close()
        self.selector.close()
        self.listening.close()


def run(words: list[str], tell: Callable[[str], None]) -> int:
    """Runs a Python program, given as its path and its words, over sessions of the program without a proof, and gives its exit status."""
    with unproved.Program(tell, fill) as program:
        program.wait_until_built()
        server = Server(program)
        path = os.pathsep.join(filter(None, [os.environ.get("PYTHONPATH"), PACKAGE]))
        environment = {**os.environ, "OWLANTIMONY": server.path, "PYTHONPATH": path, "PYTHONUNBUFFERED": "1"}
        process = subprocess.Popen([sys.executable, *words], env=environment, stdout=OUTPUT)
        try:
            while process.poll() is None:
                server.serve(0.1)
        except (BrokenPipeError, unproved.Stopped):
            tell(f"the program without a proof {program.stop()}")
        finally:
            server.close()
        status = process.wait()
        tell(f"{words[0]} ended with status {status}, over an engine that is not proved, proved=no")
        return status
