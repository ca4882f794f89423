"""Times the heap of `off_heap`: appends of a byte that grow tenfold, and copies of bits against a copy of bytes (memcpy), as ratios in
one run.

No command of the program uses the heap yet, so a small driver is proved, built and run, in a folder of its own, over the libraries as
they stand. A library that was not proved in this checkout is proved first, which takes long. The driver takes the least time of
several runs of each kind, on the clock of the machine, so other work on the machine counts.
"""
import pathlib
import shutil
import subprocess
import sys
import tempfile

NEEDED = ["bits_value", "erl_syntax", "shares", "utf_segments", "term_value", "write_room", "bit_store", "off_heap"]

DRIVER = """//! Times appends and copies.
#![tactic(auto)]

ghost use Rattle.std.specs.Prelude.{IfOk};
ghost use Rattle.off_heap.specs.Cells.{Valid};

use bit_store::{Piece, StoreFault};
use bits_value::{Bits, Endian, Steps, copy_bits};
use off_heap::{BitRef, Heap};
use std::alloc::Global;
use std::io;
use std::time::Instant;

const BYTES: usize = 4_000_000;

const BITS: u32 = 32_000_000;

/// So many bytes, each appended to the result before.
fn bytes_appended(heap: &mut Heap, count: u32) -> Result<BitRef, StoreFault>
    ensures { IfOk result (Valid heap.new.cells) }
{
    let mut steps = Steps::new();
    let mut last = heap.fresh(&[], &mut steps)?;
    for _append in 0..count {
        let byte = Piece::Number {
            value: 7,
            bits: 8,
            endian: Endian::Big,
        };
        last = heap.append(&last, &[byte], &mut steps)?;
    }
    Ok(last)
}

/// Whether a new heap took so many appends.
fn took(alloc: Global, count: u32) -> bool {
    let mut heap = Heap::new(alloc);
    match bytes_appended(&mut heap, count) {
        Ok(last) => u64::from(heap.look(&last).len()) == 8 * u64::from(count),
        Err(_) => false,
    }
}

/// Writes the least time of some runs of so many appends, in microseconds.
fn time_appends(rt: &HostRuntime, count: u32) -> io::Result<()> {
    let mut best = u128::MAX;
    for _run in 0..5u32 {
        let start = Instant::now(rt)?;
        let took = took(rt.alloc(), count);
        let spent = start.elapsed(rt)?.as_micros();
        if took {
            best = best.min(spent);
        }
    }
    println!(rt; "append {count} {best}")
}

/// What is copied.
#[derive(Clone, Copy)]
enum Copied {
    /// The bytes, as bytes.
    Bytes,
    /// Bits, from this one on to that one on.
    Bits(u32, u32),
}

fn copy(source: &[u8], target: &mut [u8], copied: Copied) {
    if source.len() != BYTES || target.len() != BYTES {
        return;
    }
    match copied {
        Copied::Bytes => target.copy_from_slice(source),
        Copied::Bits(from, to) => {
            if from <= 16 && to <= 16 {
                copy_bits(target, to, Bits::of(source, from, BITS - 16));
            }
        }
    }
}

/// Writes the least time of some copies, in microseconds.
fn time_copies(
    rt: &HostRuntime,
    name: &str,
    copied: Copied,
    source: &[u8],
    target: &mut [u8],
) -> io::Result<()> {
    let mut best = u128::MAX;
    for _run in 0..20u32 {
        let start = Instant::now(rt)?;
        copy(source, target, copied);
        best = best.min(start.elapsed(rt)?.as_micros());
    }
    println!(rt; "copy {name} {best}")
}

fn main(rt: HostRuntime) -> io::Result<()> {
    for count in [10_000u32, 100_000, 1_000_000] {
        time_appends(&rt, count)?;
    }
    let source = vec![in rt.alloc(); 0xA5u8; BYTES]?;
    let mut target = vec![in rt.alloc(); 0u8; BYTES]?;
    time_copies(&rt, "bytes", Copied::Bytes, &source, &mut target)?;
    time_copies(&rt, "aligned", Copied::Bits(0, 0), &source, &mut target)?;
    time_copies(&rt, "both-by-3", Copied::Bits(3, 3), &source, &mut target)?;
    time_copies(&rt, "3-to-8", Copied::Bits(3, 8), &source, &mut target)?;
    time_copies(&rt, "0-to-5", Copied::Bits(0, 5), &source, &mut target)
}
"""

INVARIANTS = """use Rattle.off_heap.specs.Cells.{Valid}
use Rattle.storage_driver.proofs.bytes_appended.Given as goal

abbrev pub invariant-loop-append : goal.invariant-loop-append
invariant-loop-append l = Valid l.heap.cells l.last
"""


def copy_library(crate, target):
    """The crate's sources, and what was proved of it."""
    shutil.copytree(crate, target, ignore=shutil.ignore_patterns("out"))
    proved = crate / "out" / "rlib"
    if proved.is_dir():
        shutil.copytree(proved, target / "out" / "rlib")


def write_driver(crate):
    (crate / "src").mkdir(parents=True)
    (crate / "src" / "main.rt").write_text(DRIVER)
    proofs = crate / "proofs" / "bytes_appended"
    proofs.mkdir(parents=True)
    (proofs / "Invariants.antt").write_text(INVARIANTS)


def lines_of(root):
    """What the driver prints, as lists of words."""
    with tempfile.TemporaryDirectory() as folder:
        top = pathlib.Path(folder)
        lines = [line for line in (root / "crates.txt").read_text().splitlines() if line.split(":")[0].split(" ")[0] in NEEDED]
        lines.append("storage_driver: bit_store bits_value off_heap")
        (top / "crates.txt").write_text("\n".join(lines) + "\n")
        for name in NEEDED:
            copy_library(root / "crates" / name, top / "crates" / name)
        driver = top / "crates" / "storage_driver"
        write_driver(driver)
        ran = subprocess.run(["rt", "run"], cwd=driver, capture_output=True, text=True)
        if ran.returncode != 0:
            sys.exit(ran.stdout + ran.stderr)
        return [line.split() for line in ran.stdout.splitlines() if line.startswith(("append ", "copy "))]


def main():
    root = pathlib.Path(__file__).resolve().parent.parent
    before = None
    plain = None
    for kind, what, time in lines_of(root):
        spent = max(int(time), 1)
        if kind == "append":
            if before:
                print(f"{what} appends of a byte: {spent / before:.2f} times the time of a tenth")
            before = spent
        elif what == "bytes":
            plain = spent
        else:
            print(f"a copy of bits, {what}: {spent / plain:.2f} times memcpy")


main()
