#!/usr/bin/env python3
"""Times the building, testing and printing of large codes, and of the same programs by ssadump of golang.org/x/tools.

usage: large_code.py BINARY [--instructions N] [--blocks N] [--runs N] [--peer PATH] [--keep FOLDER]

Two programs are made, each at a quarter, half and all of a size: many functions of bounded size that have about N
instructions together (1,000,000 without the option), and one function of about N blocks (100,000). BINARY builds and prints the
code of each by -build=FN, the peer by -build=F and by -build=FN, where it is there; `apt-get install golang-golang-x-tools` puts
it at /usr/bin/ssadump. A time is the least of so many runs (3), whose output goes to /dev/null; a further run counts the lines.
--keep leaves the programs in a folder. Machines are noisy: only what is measured in one run may be compared, and on a busy one
only the times of the processor."""
import argparse
import os
import pathlib
import resource
import subprocess
import sys
import tempfile
import time

# A function of bounded size: a loop, branches, an index, a call, and arithmetic.
FUNCTION = """
func f{number}(a, b int) int {{
	var row [4]int
	c, d := a, b
	for i := 0; i < 4; i++ {{
		if a < b {{
			a = a*b + c - i
		}} else {{
			b = b*a - d + i
		}}
		row[i] = c*a + d*b
		c, d = d+row[i], c^a
	}}
	if c == d {{
		return g(a, c) + row[0]
	}}
	return a*b + c*d
}}
"""
# About how many instructions that is, with each variable in a cell.
IN_FUNCTION = 90
# Seconds after which a run is given up.
LONGEST = 900

HEAD = "package main\n\nfunc g(a, b int) int { return a - b }\n"


def many_functions(instructions):
    """Functions that have so many instructions together, each of which main calls."""
    count = max(1, instructions // IN_FUNCTION)
    parts = [FUNCTION.format(number=number) for number in range(count)]
    calls = [f"\tx = f{number}(x, {number})\n" for number in range(0, count, 50)]
    return HEAD + "".join(parts) + "\nfunc main() {\n\tx := 1\n" + "".join(calls) + "\tprintln(x)\n}\n"


# Ten blocks within a loop: two branches of which one goes on with the loop, a loop, and a choice of two.
PIECE = """		if a < b {
			a += i
			continue
		}
		for b > c {
			b -= a
		}
		if a == c {
			c = b
		} else {
			c += a * b
		}
		if b == {number} {
			a = b
		}
"""
IN_PIECE = 10


def one_function(blocks):
    """A function of about so many blocks, most of which lie in a loop that is gone on with at many places."""
    count = max(1, blocks // IN_PIECE)
    body = "".join(PIECE.replace("{number}", str(number)) for number in range(count))
    text = "package main\n\nfunc f(a, b, c int) int {\n\tfor i := 0; i < 9; i++ {\n"
    return text + body + "\t}\n\treturn a*b + c\n}\n\nfunc main() { println(f(1, 2, 3)) }\n"


def environment():
    return dict(os.environ, GO111MODULE="off", GOFLAGS="", GOENV="off")


def processor():
    """Seconds of the processor that runs which have ended took."""
    used = resource.getrusage(resource.RUSAGE_CHILDREN)
    return used.ru_utime + used.ru_stime


def run_to(words, folder, out):
    """Seconds that a run takes, by the clock and of the processor; None where it fails."""
    began, before = time.monotonic(), processor()
    try:
        done = subprocess.run(
            words, cwd=folder, env=environment(), stdin=subprocess.DEVNULL, stdout=out, stderr=subprocess.PIPE, timeout=LONGEST
        )
    except subprocess.TimeoutExpired:
        print(f"{' '.join(words)}: not ended after {LONGEST} seconds", file=sys.stderr)
        return None
    if done.returncode:
        print(f"{' '.join(words)}: status {done.returncode}, {done.stderr.decode(errors='replace').strip()[:300]}", file=sys.stderr)
        return None
    return time.monotonic() - began, processor() - before


def measured(words, folder, runs):
    """The least times of some runs, and how many lines are printed; None where a run fails."""
    listing = pathlib.Path(folder, "listing")
    with open(listing, "wb") as out:
        if run_to(words, folder, out) is None:
            return None
    with open(listing, "rb") as text:
        lines = sum(1 for _ in text)
    listing.unlink()
    with open(os.devnull, "wb") as out:
        times = [run_to(words, folder, out) for _ in range(runs)]
    return None if None in times else (min(clock for clock, _ in times), min(used for _, used in times), lines)


def row(who, found):
    if found is None:
        return f"    {who:24} failed"
    clock, used, lines = found
    rate = lines / max(clock, 1e-9)
    return f"    {who:22} {clock:8.2f} s, {used:8.2f} s of the processor {lines:10,} lines {rate:12,.0f} lines a second"


def measure(name, text, commands, options):
    with tempfile.TemporaryDirectory() as room:
        folder = pathlib.Path(options.keep or room)
        folder.mkdir(parents=True, exist_ok=True)
        file = folder / (name.replace(" ", "_").replace(",", "") + ".go")
        file.write_text(text)
        print(f"{name}: {len(text):,} bytes of source", flush=True)
        for who, words in commands:
            print(row(who, measured([*words, file.name], folder, options.runs)), flush=True)


def options_of(words):
    reader = argparse.ArgumentParser(usage=__doc__.split("usage: ")[1].split("\n")[0])
    reader.add_argument("binary")
    reader.add_argument("--instructions", type=int, default=1_000_000)
    reader.add_argument("--blocks", type=int, default=100_000)
    reader.add_argument("--runs", type=int, default=3)
    reader.add_argument("--peer", default="/usr/bin/ssadump")
    reader.add_argument("--keep")
    return reader.parse_args(words)


def main():
    options = options_of(sys.argv[1:])
    commands = [("ours, -build=FN", [str(pathlib.Path(options.binary).resolve()), "-build=FN"])]
    if os.access(options.peer, os.X_OK):
        commands += [(f"x/tools, -build={letters}", [options.peer, f"-build={letters}"]) for letters in ("F", "FN")]
    for part in (4, 2, 1):
        size = options.instructions // part
        measure(f"{size:,} instructions", many_functions(size), commands, options)
    for part in (4, 2, 1):
        size = options.blocks // part
        measure(f"{size:,} blocks", one_function(size), commands, options)


if __name__ == "__main__":
    main()
