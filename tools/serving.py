"""A copy of the crates whose domrun answers scripts one after the other, each by a run of its own. It serves `rt try`, and is not proved.

The program is given two named pipes. From the first it reads scripts: a line with the number of bytes and domrun's words, a space
before each, and then the bytes. To the second it writes an answer for each: a line with the exit status, the number of bytes of output and
what domrun says of its ending, and then the output. It is domrun's own code, which this calls in place of its `main`.
"""
import os
import shutil

import sources

MAIN = "fn main(rt: HostRuntime)"
SERVED = """mod serving;

fn main(rt: HostRuntime) -> io::Result<()> {
    serving::serve(&rt)
}

fn unserved(rt: HostRuntime)"""
SERVING = r"""use crate::run_reader;
use dom_program::{ExitCause, exit_of, request_of};
use std::fs::File;
use std::io::{BufRead, BufReader, ErrorKind, Read, Write};
use std::{env, fs, io};

pub fn serve(rt: &HostRuntime) -> io::Result<()> {
    let words: Vec<String> = env::args(rt)?.collect(rt.alloc())?;
    if words.len() != 3 {
        return Err(ErrorKind::InvalidInput.into());
    }
    let mut scripts = BufReader::new(rt.alloc(), File::open(rt, words[1].as_str())?)?;
    let mut answers = fs::OpenOptions::new().write(true).open(rt, words[2].as_str())?;
    for _ in 0..u64::MAX {
        if !serve_one(rt, &mut scripts, &mut answers)? {
            break;
        }
    }
    Ok(())
}

fn serve_one(rt: &HostRuntime, scripts: &mut BufReader<File>, answers: &mut File) -> io::Result<bool> {
    let mut head = String::new(rt.alloc());
    if scripts.read_line(&mut head)? == 0 {
        return Ok(false);
    }
    let mut words: Vec<String> = Vec::new(rt.alloc());
    for word in head.trim_end().split(' ') {
        words.push(String::from_str(rt.alloc(), word)?)?;
    }
    let Ok(count) = words[0].parse::<usize>() else {
        return Err(ErrorKind::InvalidInput.into());
    };
    let mut script = vec![in rt.alloc(); 0u8; count]?;
    scripts.read_exact(&mut script)?;
    let (outcome, output) = answer(rt, &words, &script);
    let (status, text) = exit_of(&outcome);
    let head = format!(in rt.alloc(); "{status} {} {text}\n", output.len())?;
    answers.write_all(head.as_bytes())?;
    answers.write_all(output.as_slice())?;
    answers.flush()?;
    Ok(true)
}

fn answer(rt: &HostRuntime, words: &[String], script: &[u8]) -> (Result<(), ExitCause>, Vec<u8>) {
    let request = match request_of(rt.alloc(), words) {
        Ok(request) => request,
        Err(cause) => return (Err(cause), Vec::new(rt.alloc())),
    };
    let mut output = Vec::new(rt.alloc());
    let outcome = match run_reader(rt.alloc(), script, &mut output, request.view) {
        Ok(ended) => ended.outcome.map_err(ExitCause::Run),
        Err(error) => Err(error.into()),
    };
    (outcome, output)
}
"""


def fill(folder: str) -> str:
    """Copies the crates into a folder, with a domrun that serves, and gives the folder of that crate."""
    shutil.copy(os.path.join(sources.ROOT, "crates.txt"), folder)
    for crate in sources.crates():
        for part in ("src", "specs"):
            place = os.path.join(sources.ROOT, "crates", crate, part)
            if os.path.isdir(place):
                shutil.copytree(place, os.path.join(folder, "crates", crate, part))
    place = os.path.join(folder, "crates", "domrun")
    path = os.path.join(place, "src", "main.rt")
    with open(path, encoding="utf-8") as file:
        text = file.read()
    for name, content in (("main.rt", text.replace(MAIN, SERVED, 1)), ("serving.rt", SERVING)):
        with open(os.path.join(place, "src", name), "w", encoding="utf-8") as file:
            file.write(content)
    return place
