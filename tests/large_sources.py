#!/usr/bin/env python3
"""Sources at size, through the command: how long loading, scanning and parsing take, and how much memory, beside gofmt.

usage: large_sources.py BINARY

Each program ends in a rule of loading that is looked for last (an import cycle), so that nothing behind loading runs. Times are those
of the user and the system together, the least of three runs; memory is the peak of the process. gofmt -l runs on one processor over
the same files. It needs Debian's package golang-go."""
import os
import pathlib
import resource
import subprocess
import sys
import tempfile

FUNCTION = """
// value{n} adds up what the items of a list weigh, and gives up behind the first heavy one.
func value{n}(items []int, limit int) (sum int, ok bool) {{
	for index, item := range items {{
		if item > limit && index != {n} {{
			return sum, false
		}}
		sum += item*{n} + index<<2
	}}
	switch {{
	case sum > limit:
		sum = limit - sum%7
	default:
		sum = weigh(sum, 0x{n:x}, "text {n}", 'r')
	}}
	return sum, true
}}
"""


def run(words, folder):
    """The seconds of the processor and the peak of memory, in bytes, of a command."""
    reading, writing = os.pipe()
    child = os.fork()
    if child == 0:
        os.chdir(folder)
        os.sched_setaffinity(0, {min(os.sched_getaffinity(0))})
        with open(os.devnull, "w") as nothing:
            subprocess.run(words, stdout=nothing, stderr=nothing)
        used = resource.getrusage(resource.RUSAGE_CHILDREN)
        os.write(writing, f"{used.ru_utime + used.ru_stime} {used.ru_maxrss * 1024}".encode())
        os._exit(0)
    os.waitpid(child, 0)
    told = os.read(reading, 100).decode().split()
    os.close(reading)
    os.close(writing)
    return float(told[0]), int(told[1])


def least(words, folder):
    found = [run(words, folder) for _ in range(3)]
    return min(it[0] for it in found), max(it[1] for it in found)


def functions(count, first=0):
    return "".join(FUNCTION.format(n=n) for n in range(first, first + count))


def module(folder, packages, each):
    """A module of packages of two files each, the first of which imports up to four others; two import each other."""
    (folder / "go.mod").write_text("module big\n\ngo 1.21\n")
    for n in range(packages):
        place = folder / f"p{n}"
        place.mkdir()
        named = [k for k in {n // 2, n // 3, n - 1, n // 7} if 0 <= k < n]
        imports = "".join(f'import _ "big/p{k}"\n' for k in named)
        if n == 0 and packages > 1:
            imports = f'import _ "big/p{packages - 1}"\n'
        (place / "a.go").write_text(f"package p{n}\n\n{imports}{functions(each)}")
        (place / "b.go").write_text(f"package p{n}\n{functions(each, each)}")
    every = "".join(f'import _ "big/p{n}"\n' for n in range(packages))
    (folder / "main.go").write_text(f"package main\n\n{every}\nfunc main() {{}}\n")


def sizes(folder):
    return sum(it.stat().st_size for it in folder.rglob("*.go"))


def row(name, binary, folder):
    bytes_ = sizes(folder)
    seconds, memory = least([binary, "."], folder)
    peer, _ = least(["gofmt", "-l", "."], folder)
    each = f"{bytes_ / seconds / 1e6:.1f} MB/s, {memory / bytes_:.1f} bytes a byte"
    print(f"{name}: {bytes_:,} bytes, {seconds:.2f} s, {memory / 1e6:.0f} MB ({each}); gofmt {peer:.2f} s, {seconds / peer:.2f} of it", flush=True)


def main():
    binary = os.path.abspath(sys.argv[1])
    for packages, each in ((10, 10), (100, 10), (1000, 10)):
        with tempfile.TemporaryDirectory() as room:
            folder = pathlib.Path(room)
            module(folder, packages, each)
            row(f"{packages} packages, {2 * packages + 1} files", binary, folder)
    for count in (1000, 2000, 4000, 8000):
        with tempfile.TemporaryDirectory() as room:
            folder = pathlib.Path(room)
            module(folder, 2, 1)
            (folder / "p1" / "c.go").write_text(f"package p1\n{functions(count, 2)}")
            row(f"one file of {count} functions", binary, folder)


main()
