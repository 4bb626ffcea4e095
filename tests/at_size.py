#!/usr/bin/env python3
"""Programs at size, through the command: limits, and that nothing gives up before them.

usage: at_size.py BINARY

Each case is a tree of files, the words of the command, and the line of standard error and the status that are wanted. No
time is asked but that a case ends within two minutes. The last line is 'N passed, M failed'."""
import pathlib
import subprocess
import sys
import tempfile

MIB = 1 << 20


def declared(count):
    """So many declared types, each of which points to the next."""
    lines = [f"type T{n} struct{{ next *T{(n + 1) % count} }}" for n in range(count)]
    return "package main\n" + "\n".join(lines) + "\nfunc main() { var t T0; _ = t }\n"


def doubled(depth):
    """A struct to whose innermost part 2^depth ways lead, of no size."""
    lines = ["type S0 struct{ a, b [0]int }"]
    lines += [f"type S{n} struct{{ a, b [0]S{n - 1} }}" for n in range(1, depth)]
    last = f"S{depth - 1}"
    return "package main\n" + "\n".join(lines) + f"\nfunc main() {{ var a, b {last}; println(a == b) }}\n"


def embedded(count):
    """A chain of embedded pointers with a field at its end."""
    lines = ["type E0 struct{ last int }"] + [f"type E{n} struct{{ *E{n - 1} }}" for n in range(1, count)]
    return "package main\n" + "\n".join(lines) + f"\nfunc f(e *E{count - 1}) int {{ return e.last }}\nfunc main() {{ _ = f }}\n"


def leaves(count):
    return f"package main\nvar a [{count}]int\nfunc main() {{ _ = a }}\n"


def parentheses(count):
    return "package main\nfunc main() {\n\tx := 1\n\t_ = " + "(" * count + "x" + ")" * count + "\n}\n"


def commented(size):
    """A file of a size, most of which is a comment."""
    text = "package main\n/*"
    return text + "x" * (size - len(text) - 3) + "*/\n"


def fields(count):
    """A struct of so many fields, of which the last is set and read."""
    lines = "".join(f"\tf{n} int\n" for n in range(count))
    last = f"s.f{count - 1}"
    return f"package main\ntype S struct {{\n{lines}}}\nfunc main() {{ var s S; {last} = 7; if {last} != 7 {{ panic(1) }} }}\n"


def methods(types, each):
    """So many types, each with so many methods."""
    lines = [f"type T{n} int\n" + "".join(f"func (T{n}) m{k}() {{}}\n" for k in range(each)) for n in range(types)]
    return "package main\n" + "".join(lines) + "func main() {}\n"


def one_type(count):
    """A type of so many methods, of which the last is called through an interface that a pointer is put into."""
    lines = "".join(f"func (T) m{n}() int {{ return {n} }}\n" for n in range(count))
    last = f"m{count - 1}"
    call = f"var i interface{{ {last}() int }} = new(T); if i.{last}() != {count - 1} {{ panic(1) }}"
    return f"package main\ntype T int\n{lines}func main() {{ {call} }}\n"


def variables(count):
    """So many variables, each of which needs the next."""
    lines = "".join(f"var v{n} = v{n + 1} + 1\n" for n in range(count - 1))
    return f"package main\n{lines}var v{count - 1} = 1\nfunc main() {{ if v0 != {count} {{ panic(v0) }} }}\n"


def imports(count):
    """So many names for one package."""
    lines = "".join(f'import e{n} "errors"\n' for n in range(count))
    used = "".join(f"var _ = e{n}.New\n" for n in range(count))
    return f"package main\n{lines}{used}func main() {{}}\n"


def packages(count, last):
    """Packages in a row, each of which imports the next, and the last one what is given."""
    files = {"go.mod": "module m\n\ngo 1.21\n", "a.go": 'package main\nimport "m/p0"\nfunc main() { _ = p0.V }\n'}
    for n in range(count):
        after = n + 1 if n + 1 < count else last
        use = "" if after is None else f'import "m/p{after}"\n'
        value = "0" if after is None else f"p{after}.V + 1"
        files[f"p{n}/a.go"] = f"package p{n}\n{use}var V = {value}\n"
    return files


def nested(count):
    """A value in so many interfaces, each of which holds the one before twice."""
    step = f"for n := 0; n < {count}; n++ {{ v = pair{{v, v}} }}"
    return f"package main\ntype pair struct{{ a, b any }}\nfunc main() {{\n\tvar v any = 1\n\t{step}\n\t_ = v\n}}\n"


def bound(count):
    """A method value that is bound to one, and so on."""
    step = f"for n := 0; n < {count}; n++ {{ t = T{{t.m}} }}"
    return f"package main\ntype T struct{{ f func() }}\nfunc (t T) m() {{}}\nfunc main() {{\n\tvar t T\n\t{step}\n}}\n"


def many(names, of):
    return {name: of for name in names}


def cases():
    main = "package main\nfunc main() {}\n"
    yield "110,000 declared types", {"a.go": declared(110_000)}, ["a.go"], "", 0
    yield "2^60 ways to a part", {"a.go": doubled(60)}, ["-run", "a.go"], "", 0
    yield "2,000 embedded pointers", {"a.go": embedded(2_000)}, ["a.go"], "", 0
    yield "1,048,576 leaves", {"a.go": leaves(1_048_576)}, ["a.go"], "", 0
    yield "one leaf more", {"a.go": leaves(1_048_577)}, ["a.go"], "a.go:2:7: type too large (N11)", 1
    yield "100,000 fields", {"a.go": fields(100_000)}, ["-run", "a.go"], "", 0
    yield "100,000 methods of 20,000 types", {"a.go": methods(20_000, 5)}, ["a.go"], "", 0
    yield "5,000 methods of one type", {"a.go": one_type(5_000)}, ["-run", "a.go"], "", 0
    yield "50,000 variables in a row", {"a.go": variables(50_000)}, ["-run", "a.go"], "", 0
    yield "20,000 imports", {"a.go": imports(20_000)}, ["a.go"], "", 0
    yield "10,000 packages in a row", packages(10_000, None), ["-run", "."], "", 0
    cycle = "p0/a.go:2:8: import cycle (M9)"
    yield "10,000 packages in a cycle", packages(10_000, 0), ["."], cycle, 1
    too_deep = "panic: runtime error: value nested too deeply"
    yield "interfaces 10,000 deep", {"a.go": nested(4_999)}, ["-run", "a.go"], "", 0
    yield "and deeper", {"a.go": nested(5_000)}, ["-run", "a.go"], too_deep, 2
    yield "method values 10,000 deep", {"a.go": bound(4_999)}, ["-run", "a.go"], "", 0
    yield "and deeper", {"a.go": bound(5_000)}, ["-run", "a.go"], too_deep, 2
    yield "390 parentheses", {"a.go": parentheses(390)}, ["a.go"], "", 0
    yield "a file of 4 MiB", {"a.go": main, "b.go": commented(4 * MIB)}, ["."], "", 0
    yield "a byte more", {"a.go": main, "b.go": commented(4 * MIB + 1)}, ["."], "b.go:1:1: file too large (M5)", 1
    names = [f"b{n:02}.go" for n in range(16)]
    whole = commented(4 * MIB)
    first = commented(4 * MIB - len(main))
    yield "64 MiB in all", {"a.go": main, "b.go": first, **many(names[1:], whole)}, ["."], "", 0
    yield "more than 64 MiB", {"a.go": main, **many(names, whole)}, ["."], "b15.go:1:1: program too large (M6)", 1


def failure(binary, files, words, wanted, status):
    """What is wrong with a case; nothing where it is as wanted."""
    with tempfile.TemporaryDirectory() as room:
        for name, text in files.items():
            path = pathlib.Path(room, name)
            path.parent.mkdir(exist_ok=True)
            path.write_text(text)
        try:
            done = subprocess.run([binary, *words], cwd=room, capture_output=True, timeout=120)
        except subprocess.TimeoutExpired:
            return "it did not end"
    found = done.stderr.decode(errors="replace").strip()
    if found != wanted or done.returncode != status:
        return f"status {done.returncode}, {found!r}"
    return ""


def main():
    binary = str(pathlib.Path(sys.argv[1]).resolve())
    passed = failed = 0
    for name, files, words, wanted, status in cases():
        wrong = failure(binary, files, words, wanted, status)
        if wrong:
            print(f"{name}: {wrong}")
        passed, failed = passed + (not wrong), failed + bool(wrong)
    print(f"{passed} passed, {failed} failed")
    return 1 if failed else 0


if __name__ == "__main__":
    sys.exit(main())
