"""Builds a small program around a call of the library, and measures its runs."""
import pathlib
import shutil
import subprocess
import sys

HERE = pathlib.Path(__file__).resolve().parent.parent

# A program that reads the file that its first word names, and ends with what `judge` says of the bytes.
PROGRAM = """
//! Reads the file that the first word names, and ends with 0 where the call takes it and 3 where it refuses it.
#![tactic(auto)]

use atl_base::text::Text;
use atl_outside::files::Files as Paths;
use atl_outside::host::HostFiles;
use std::alloc::Global;
use std::env;
use std::process::ExitCode;
use std::rt::Env;
%s
fn path<R: Env + AllocGlobal>(rt: &R) -> Option<Text> {
    let words = env::args(rt).ok()?;
    let word = words.skip(1).next()?;
    Text::from_bytes(rt.alloc(), word.as_str().as_bytes()).ok()
}

fn main(rt: HostRuntime) -> ExitCode {
    let Some(path) = path(&rt) else {
        return ExitCode::from(2);
    };
    let mut files = HostFiles::new(&rt);
    match files.read(rt.alloc(), &path, 67_108_864) {
        Ok(bytes) => ExitCode::from(judge(rt.alloc(), &bytes)),
        Err(_) => ExitCode::from(2),
    }
}
"""

# Runs the program that its words name, whose output is passed over, and prints the processor's seconds, the peak memory in KiB and the
# status. A process' peak begins with that of the one that starts it, so this one is small.
MEASURE = """
import os, sys
sys.stdout = os.fdopen(os.dup(1), "w")
os.dup2(os.open(os.devnull, os.O_WRONLY), 1)
child = os.spawnv(os.P_NOWAIT, sys.argv[1], sys.argv[1:])
_, status, used = os.wait4(child, 0)
print(used.ru_utime + used.ru_stime, used.ru_maxrss, os.waitstatus_to_exitcode(status))
"""


def build(folder, libraries, judge):
    """The program around the function `judge`, which uses these libraries, built in a folder of its own."""
    for name in ("HANDLES", "crates"):
        source = HERE / name
        if source.is_dir():
            shutil.copytree(source, folder / name)
        else:
            shutil.copy(source, folder / name)
    crates = (HERE / "crates.txt").read_text()
    (folder / "crates.txt").write_text(crates + "measured: atl_base atl_outside %s\n" % libraries)
    target = folder / "crates" / "measured"
    (target / "src").mkdir(parents=True)
    (target / "src" / "main.rt").write_text((PROGRAM % judge).lstrip())
    subprocess.run(["rt", "run"], cwd=target, stdout=subprocess.DEVNULL, stderr=subprocess.DEVNULL)
    program = target / "out" / "measured"
    if not program.exists():
        sys.exit("the program could not be built")
    return program


def run(program, *words):
    """The processor's seconds, and the peak memory in bytes, of the program with these words."""
    words = [sys.executable, "-S", "-E", "-c", MEASURE, str(program)] + [str(word) for word in words]
    seconds, peak, status = subprocess.run(words, check=True, capture_output=True, text=True).stdout.split()
    if status != "0":
        sys.exit("the program ended with %s" % status)
    return float(seconds), int(peak) * 1024
