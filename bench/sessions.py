"""What the scripts beside this file share: runs of sessions, with what they cost, and a program for many databases."""
import pathlib
import re
import resource
import shutil
import subprocess
import sys
import tempfile

TOP = pathlib.Path(__file__).resolve().parent.parent
MAIN = """//! Runs the session that is its only word, with at most 64 databases, and prints its replies.
#![tactic(auto)]

use slon_base::Files;
use slon_main::{Cluster, run_session};
use slon_system::{RealFiles, RealShelf, RealSink};
use std::env;
use std::process::ExitCode;

fn main(rt: HostRuntime) -> ExitCode {
    let Ok(words) = env::args(&rt) else {
        return ExitCode::from(2);
    };
    let Some(word) = words.skip(1).next() else {
        return ExitCode::from(2);
    };
    let mut files = RealFiles::new(rt.alloc(), &rt);
    let mut shelf = RealShelf::new(rt.alloc());
    let mut out = RealSink::new(rt.stdout());
    let mut cluster = Cluster::new(rt.alloc(), 64);
    let Ok(true) = files.enter(word.as_str().as_bytes()) else {
        return ExitCode::from(3);
    };
    match run_session(rt.alloc(), &mut cluster, &mut files, &mut shelf, &mut out) {
        Ok(()) => ExitCode::from(0),
        Err(_) => ExitCode::from(1),
    }
}
"""


def build_many(folder):
    """The program that allows 64 databases, in a folder with the crates of this repository."""
    crates = folder / "crates"
    crates.mkdir(parents=True, exist_ok=True)
    lines = (TOP / "crates.txt").read_text().splitlines()
    (folder / "crates.txt").write_text("\n".join(lines + ["many: slon_base slon_main slon_system"]) + "\n")
    shutil.copy(TOP / "HANDLES", folder / "HANDLES")
    for crate in (line.split(":")[0] for line in lines):
        if not (crates / crate).exists():
            shutil.copytree(TOP / "crates" / crate, crates / crate, ignore=shutil.ignore_patterns("must-fail"))
    source = crates / "many" / "src"
    source.mkdir(parents=True, exist_ok=True)
    (source / "main.rt").write_text(MAIN)
    begun = subprocess.run(["rt", "run"], cwd=source.parent, capture_output=True, text=True)
    program = source.parent / "out" / "many"
    if not program.exists():
        sys.exit(begun.stdout + begun.stderr)
    return program


def spent():
    """The processor seconds of all programs that were run."""
    usage = resource.getrusage(resource.RUSAGE_CHILDREN)
    return usage.ru_utime + usage.ru_stime


def counted(words, folder):
    """The instructions of one run, a thousand million as a second, and what it printed."""
    words = ["valgrind", "--tool=callgrind", "--callgrind-out-file=/dev/null", *words]
    done = subprocess.run(words, cwd=folder, capture_output=True, check=True)
    return int(re.search(rb"Collected : (\d+)", done.stderr).group(1)) / 1e9, done.stdout


def timed(commands, folder, times):
    """The processor seconds of the fastest run of each of these programs, which run in turn, and what each printed."""
    took, printed = [float("inf")] * len(commands), [b""] * len(commands)
    for _ in range(times):
        for at, words in enumerate(commands):
            before = spent()
            printed[at] = subprocess.run(words, cwd=folder, capture_output=True, check=True).stdout
            took[at] = min(took[at], spent() - before)
    return list(zip(took, printed))


def run_words(args, commands, folder):
    """What a run of each of these programs with its words takes, and the lines that it prints."""
    if args.count:
        runs = [counted(words, folder) for words in commands]
    else:
        runs = timed(commands, folder, args.times)
    return [(took, printed.decode().splitlines()) for took, printed in runs]


def run_in_turn(args, program, texts):
    """What a run of each of these sessions takes, and its replies."""
    with tempfile.TemporaryDirectory() as folder:
        for at, text in enumerate(texts):
            (pathlib.Path(folder) / f"s{at}").write_text(text)
        return run_words(args, [[program, f"s{at}"] for at in range(len(texts))], folder)


def run(args, program, text):
    """What a run of the session takes, and its replies."""
    return run_in_turn(args, program, [text])[0]
