#!/usr/bin/env python3
"""Random programs full of dynamic calls, through the command and through Go's own compiler.

usage: random_calls.py BINARY [FIRST [COUNT [FOLDER]]]

Each program moves functions and values of interfaces through fields, maps, channels, slices, closures, embedded
fields, method values and panics, and calls them. Go's compiler builds it with a line in each function that notes who
called it from which line (deferred functions and goroutines left out). Each call that was noted must be an edge of all
three call graphs, the graphs by what is reached and by flows must lie within that by classes, and the run must print
and end as the built program does. Needs `go` on the path. A program that falls short stays in FOLDER
(/tmp/random_calls), under its number. The last line is 'N passed, N failed, N skipped'; those that Go's compiler
refuses are skipped."""
import pathlib
import random
import re
import shutil
import subprocess
import sys

# The methods that types and interfaces are made of: parameters and results.
METHODS = {
    "A": ([], ["int"]),
    "B": (["F"], ["F"]),
    "C": (["I0"], ["I1"]),
    "D": (["interface{}"], ["interface{}"]),
    "G": (["...I0"], ["I0", "F"]),
    "H": (["map[int]F"], ["[]I1"]),
}
MAKER = "func(I0) I1"
INTERFACES = ("I0", "I1")

HEAD = """
type I2 interface {
	I0
	I1
}
type F func(int) int

var gi0 I0
var gi1 I1
var gf F
var gg func(I0) I1
var ge interface{}
var gs []I1
var gm = map[int]F{}
var gc = make(chan I0, 4)
var ga [2]F
var gp *I0 = &gi0
var fuel = 300

func setp(p *I0, v I0) {/*B main.setp*/
	*p = v
}
func safe(f func()) {/*B main.safe*/
	defer func() {/*D*/
		if e, ok := recover().(error); ok {
			_ = e.Error()
		}
	}/*E*/()
	f()
}
func fa(x int) int {/*B main.fa*/
	return x + 1
}
func fb(x int) int {/*B main.fb*/
	if fuel <= 0 || gf == nil {
		return 0
	}
	fuel--
	return gf(x)
}
func fc(y I0) (r I1) {/*B main.fc*/
	if k, ok := y.(I1); ok {
		r = k
		return
	}
	return gi1
}
"""

# Beside the program that Go's compiler builds: notes the line of the caller of the function that calls it.
NOTES = """package main

import (
	"fmt"
	"os"
	"runtime"
	"strings"
)

var noted = map[string]bool{}

func note(name string) {
	_, file, line, ok := runtime.Caller(2)
	if !ok || !strings.HasSuffix(file, "a.go") {
		return
	}
	text := fmt.Sprintf("%d %s\\n", line, name)
	if !noted[text] {
		noted[text] = true
		fmt.Fprint(os.Stdout, text)
	}
}
"""


def results(types):
    return types[0] if len(types) == 1 else f"({', '.join(types)})" if types else ""


def zeros(types):
    return ", ".join("0" if of == "int" else "nil" for of in types)


class Scope:
    """The local variables of a place, by their types."""

    def __init__(self, by_type=None):
        self.by_type = {of: list(names) for of, names in (by_type or {}).items()}

    def add(self, name, of):
        self.by_type.setdefault(of, []).append(name)

    def within(self):
        return Scope(self.by_type)


class Generator:
    """One program, by its number."""

    def __init__(self, seed):
        self.random = random.Random(seed)
        self.count = 0
        self.of_interface = {"I0": self.random.sample(list(METHODS), 2)}
        self.of_interface["I1"] = self.random.sample(list(METHODS), self.random.choice([1, 2]))
        self.structs = []
        # by type: the methods of its values, and those of pointers to them
        self.methods = {}
        self.functions = [f"h{number}" for number in range(self.random.randint(3, 6))]

    def chance(self, part):
        return self.random.random() < part

    def fresh(self):
        self.count += 1
        return f"v{self.count}"

    # ---- types

    def interface(self, name):
        rows = []
        for method in self.of_interface[name]:
            params, given = METHODS[method]
            rows.append(f"\t{method}({', '.join(params)}) {results(given)}")
        return f"type {name} interface {{\n" + "\n".join(rows) + "\n}"

    def struct(self, number):
        embedded = []
        if self.structs and self.chance(0.5):
            embedded.append(("*" if self.chance(0.4) else "", self.random.choice(self.structs)[0]))
        if self.chance(0.4):
            embedded.append(("", self.random.choice(INTERFACES)))
        own = {method: self.chance(0.4) for method in METHODS if self.chance(0.45)}
        name = f"T{number}"
        self.structs.append((name, own))
        self.methods[name] = self.method_sets(embedded, own)
        rows = "".join(f"\t{star}{of}\n" for star, of in embedded)
        return f"type {name} struct {{\n{rows}\tf F\n\tg {MAKER}\n\ti I0\n\tj interface{{}}\n}}"

    def method_sets(self, embedded, own):
        of_value, of_pointer = {method for method in own if not own[method]}, set(own)
        for method in set(METHODS) - set(own):
            ways = [(star, of) for star, of in embedded if method in self.reached(of)]
            if len(ways) != 1:
                continue
            star, of = ways[0]
            of_pointer.add(method)
            if of in INTERFACES or star or method in self.methods[of][0]:
                of_value.add(method)
        return of_value, of_pointer

    def reached(self, of):
        return self.of_interface[of] if of in INTERFACES else self.methods[of][1]

    def implementers(self, name):
        wanted = set(self.of_interface[name])
        literal = "{f: gf, g: gg, i: gi0, j: ge}"
        values = [of + literal for of, (of_value, _) in self.methods.items() if wanted <= of_value]
        return values + ["&" + of + literal for of, (_, of_pointer) in self.methods.items() if wanted <= of_pointer]

    # ---- expressions

    def expression(self, of, depth, scope):
        choices = 3 * [self.random.choice(scope.by_type[of])] if scope.by_type.get(of) else []
        choices += self.plain(of)
        if depth > 0:
            choices += self.composed(of, depth - 1, scope)
        return self.random.choice(choices)

    def plain(self, of):
        places = {
            "int": [str(self.random.randint(0, 9)), "len(gs)", "fuel"],
            "I0": ["gi0", "*gp"],
            "I1": ["gi1"],
            "F": ["gf", f"gm[{self.random.randint(0, 3)}]", f"ga[{self.random.randint(0, 1)}]"],
            MAKER: ["gg"],
            "interface{}": ["ge", "gi0", "gf"],
            "[]I1": ["gs"],
            "map[int]F": ["gm"],
        }
        return places[of]

    def composed(self, of, depth, scope):
        if of in INTERFACES:
            return 2 * self.implementers(of)
        if of == "F":
            return [self.literal([("x", "int")], ["int"], depth, scope), "F(fa)", "fb"]
        if of == MAKER:
            return [self.literal([("y", "I0")], ["I1"], depth, scope), "fc", *self.bound_makers()]
        if of == "interface{}":
            return [self.expression(it, depth, scope) for it in ("I1", MAKER, "F")]
        if of == "[]I1":
            item = self.expression("I1", depth, scope)
            return [f"[]I1{{{item}}}", f"append(gs, {item})", "append([]I1{}, gs...)"]
        if of == "map[int]F":
            return [f"map[int]F{{{self.random.randint(0, 3)}: {self.expression('F', depth, scope)}}}"]
        return []

    def bound_makers(self):
        """Method values of the methods C."""
        found = [f"bound{of}()" for of in INTERFACES if "C" in self.of_interface[of]]
        for of, (of_value, of_pointer) in self.methods.items():
            found += [f"(&{of}{{f: gf, i: gi0}}).C"] if "C" in of_pointer else []
            found += [f"{of}{{g: gg}}.C"] if "C" in of_value else []
        return found

    def literal(self, params, given, depth, scope):
        inner = scope.within()
        for name, of in params:
            inner.add(name, of)
        body = self.statements(self.random.randint(0, 2 if depth else 1), depth, inner, 1)
        value = ", ".join(self.expression(of, depth, inner) for of in given)
        head = f"func({', '.join(f'{name} {of}' for name, of in params)}) {results(given)}"
        return f"{head} {{/*L*/ if fuel <= 0 {{ return {zeros(given)} }}; fuel--\n{body}\treturn {value}\n}}/*E*/"

    def converted(self, of, depth, scope):
        """An expression in parentheses, for the head of a statement."""
        return f"(({of})({self.expression(of, depth, scope)}))"

    def arguments(self, params, depth, scope):
        found = []
        for of in params:
            spread = of.startswith("...")
            for _ in range(self.random.randint(0, 2) if spread else 1):
                found.append(self.expression(of.lstrip("."), depth, scope))
        return found

    # ---- statements

    def statements(self, count, depth, scope, level):
        return "".join(self.statement(depth, scope, level) for _ in range(count))

    def statement(self, depth, scope, level):
        depth = min(depth, 2)
        makers = [self.assign] * 9 + [self.call_interface] * 4 + [self.call_function, self.call_maker, self.call_maker]
        makers += [self.send, self.receive, self.switch, self.assertion, self.range_slice, self.range_map, self.declare]
        makers += [self.helper, self.panics, self.with_struct, self.store]
        makers += [self.unbound, self.bound, self.unbound_of_type]
        return self.random.choice(makers)(depth, scope, level)

    def more(self, depth, scope, level):
        return self.statements(2 if level < 2 else 0, depth, scope, level + 1)

    def take(self, call, given, scope):
        """A call whose results become variables."""
        names = [self.fresh() for _ in given]
        for name, of in zip(names, given):
            scope.add(name, of)
        return f"\t{', '.join(names)} := {call}\n\t{', '.join('_' for _ in given)} = {', '.join(names)}\n"

    def guarded(self, body):
        return f"\tsafe(func() {{/*L*/\n{body}\t}}/*E*/)\n"

    def unless_nil(self, name, of, depth, scope, body):
        return f"\tif {name} := {self.converted(of, depth, scope)}; {name} != nil {{\n{body}\t}}\n"

    def assign(self, depth, scope, level):
        places = [("gi0", "I0"), ("gi1", "I1"), ("gf", "F"), ("gg", MAKER), ("ge", "interface{}"), ("gs", "[]I1")]
        places += [(f"gm[{self.random.randint(0, 3)}]", "F"), (f"ga[{self.random.randint(0, 1)}]", "F")]
        place, of = self.random.choice(places)
        return f"\t{place} = {self.expression(of, depth, scope)}\n"

    def store(self, depth, scope, level):
        return f"\tsetp(gp, {self.expression('I0', depth, scope)})\n"

    def declare(self, depth, scope, level):
        of, name = self.random.choice(["I0", "I1", "F", MAKER, "interface{}"]), self.fresh()
        value = self.expression(of, depth, scope)
        scope.add(name, of)
        return f"\tvar {name} {of} = {value}\n\t_ = {name}\n"

    def send(self, depth, scope, level):
        return f"\tselect {{\n\tcase gc <- {self.expression('I0', depth, scope)}:\n\tdefault:\n\t}}\n"

    def receive(self, depth, scope, level):
        name, inner = self.fresh(), scope.within()
        inner.add(name, "I0")
        body = self.more(depth, inner, level)
        return f"\tselect {{\n\tcase {name} := <-gc:\n\t_ = {name}\n{body}\tdefault:\n\t}}\n"

    def call_interface(self, depth, scope, level):
        of, name, inner = self.random.choice(INTERFACES), self.fresh(), scope.within()
        params, given = METHODS[method := self.random.choice(self.of_interface[of])]
        inner.add(name, of)
        call = f"{name}.{method}({', '.join(self.arguments(params, depth, scope))})"
        body = self.guarded(self.take(call, given, inner) + self.statements(level < 2, depth, inner, level + 1))
        return self.unless_nil(name, of, depth, scope, body)

    def call_function(self, depth, scope, level):
        name = self.fresh()
        call = f"{name}({self.expression('int', 0, scope)})"
        return self.unless_nil(name, "F", depth, scope, self.take(call, ["int"], scope.within()))

    def call_maker(self, depth, scope, level):
        name, inner = self.fresh(), scope.within()
        call = f"{name}({self.expression('I0', depth, scope)})"
        body = self.take(call, ["I1"], inner) + self.statements(level < 2, depth, inner, level + 1)
        return self.unless_nil(name, MAKER, depth, scope, self.guarded(body))

    def switch(self, depth, scope, level):
        name, cases = self.fresh(), ""
        for of in self.random.sample(["I0", "I1", "F", MAKER, "T0", "*T1"], 3):
            cases += f"\tcase {of}:\n\t_ = {name}\n"
            if of == "F":
                cases += f"\tif {name} != nil {{ _ = {name}(1) }}\n"
            if of in INTERFACES:
                params, given = METHODS[method := self.random.choice(self.of_interface[of])]
                call = f"{name}.{method}({', '.join(self.arguments(params, 0, scope))})"
                cases += self.guarded(self.take(call, given, scope.within()))
        return f"\tswitch {name} := {self.converted('interface{}', depth, scope)}.(type) {{\n{cases}\t}}\n"

    def assertion(self, depth, scope, level):
        of, name, inner = self.random.choice(["I0", "I1", "F"]), self.fresh(), scope.within()
        inner.add(name, of)
        body = self.more(depth, inner, level)
        value = self.converted("interface{}", depth, scope)
        return f"\tif {name}, ok := {value}.({of}); ok {{\n\t_ = {name}\n{body}\t}}\n"

    def range_slice(self, depth, scope, level):
        name, inner = self.fresh(), scope.within()
        inner.add(name, "I1")
        body = self.more(depth, inner, level)
        return f"\tfor _, {name} := range {self.converted('[]I1', depth, scope)} {{\n\t_ = {name}\n{body}\t}}\n"

    def range_map(self, depth, scope, level):
        name = self.fresh()
        body = f"\tif {name} != nil {{ _ = {name}(2) }}\n\tbreak\n"
        return f"\tfor _, {name} := range {self.converted('map[int]F', depth, scope)} {{\n{body}\t}}\n"

    def helper(self, depth, scope, level):
        call = f"{self.random.choice(self.functions)}({', '.join(self.arguments(['I0', 'F'], depth, scope))})"
        return self.take(call, ["I1", MAKER], scope)

    def panics(self, depth, scope, level):
        name = self.fresh()
        recovered = f"\t{name} := recover()\n\tif k, ok := {name}.(I1); ok {{ gi1 = k }}\n"
        recovered += f"\tif k, ok := {name}.(F); ok && k != nil {{ _ = k(3) }}\n\tge = {name}\n"
        value = self.expression("interface{}", depth, scope)
        return f"\tfunc() {{/*L*/\n\tdefer func() {{/*D*/\n{recovered}\t}}/*E*/()\n\tpanic({value})\n\t}}/*E*/()\n"

    def with_struct(self, depth, scope, level):
        of, name = self.random.choice(self.structs)[0], self.fresh()
        parts = zip("fgij", self.arguments(["F", MAKER, "I0", "interface{}"], depth, scope))
        text = f"\t{{\n\t{name} := {of}{{{', '.join(f'{field}: {value}' for field, value in parts)}}}\n"
        if self.methods[of][1]:
            params, given = METHODS[method := self.random.choice(sorted(self.methods[of][1]))]
            call = f"{name}.{method}({', '.join(self.arguments(params, depth, scope))})"
            text += self.guarded(self.take(call, given, scope.within()))
        text += f"\tif {name}.f != nil {{ _ = {name}.f(4) }}\n\tif {name}.g != nil {{ gi1 = {name}.g({name}.i) }}\n"
        return text + "\t}\n"

    def unbound(self, depth, scope, level):
        """A method expression of an interface."""
        return self.through_value(depth, scope, lambda of, name, method: (f"{of}.{method}", [name]))

    def bound(self, depth, scope, level):
        """A method value of an interface."""
        return self.through_value(depth, scope, lambda of, name, method: (f"{name}.{method}", []))

    def through_value(self, depth, scope, function):
        of, name, held = self.random.choice(INTERFACES), self.fresh(), self.fresh()
        params, given = METHODS[method := self.random.choice(self.of_interface[of])]
        value, first = function(of, name, method)
        call = f"{held}({', '.join(first + self.arguments(params, depth, scope))})"
        body = f"\t{held} := {value}\n" + self.take(call, given, scope.within())
        return self.unless_nil(name, of, depth, scope, self.guarded(body))

    def unbound_of_type(self, depth, scope, level):
        """A method expression of a pointer."""
        of, held = self.random.choice(self.structs)[0], self.fresh()
        if not self.methods[of][1]:
            return ""
        params, given = METHODS[method := self.random.choice(sorted(self.methods[of][1]))]
        receiver = f"&{of}{{f: gf, i: gi0}}"
        call = f"{held}({', '.join([receiver] + self.arguments(params, depth, scope))})"
        return self.guarded(f"\t{held} := (*{of}).{method}\n" + self.take(call, given, scope.within()))

    # ---- functions

    def bound_of(self, of):
        value = {"I0": "gi0", "I1": "gi1"}[of]
        body = f"\tif {value} == nil {{ return fc }}\n\treturn {value}.C\n"
        return f"func bound{of}() {MAKER} {{/*B main.bound{of}*/\n{body}}}"

    def method(self, of, name, is_pointer):
        params, given = METHODS[name]
        scope, first = Scope(), ""
        for place, it in enumerate(params):
            if it.startswith("..."):
                first = f"\tfor _, q := range p{place} {{ gi0 = q }}\n"
            else:
                scope.add(f"p{place}", it)
        listed = ", ".join(f"p{place} {it}" for place, it in enumerate(params))
        body = first + self.statements(self.random.randint(0, 3), 1, scope, 0)
        values = [self.expression(it, 1, scope) for it in given]
        head, end = results(given), f"\treturn {', '.join(values)}\n"
        if self.chance(0.3):
            head = f"({', '.join(f'r{place} {it}' for place, it in enumerate(given))})"
            end = "".join(f"\tr{place} = {value}\n" for place, value in enumerate(values)) + "\treturn\n"
        star = "*" if is_pointer else ""
        guard = f"if fuel <= 0 {{ return {zeros(given)} }}; fuel--"
        label = f"/*B ({star}main.{of}).{name}*/"
        return f"func (s {star}{of}) {name}({listed}) {head} {{{label} {guard}\n{body}{end}}}"

    def function(self, name):
        scope, given = Scope({"I0": ["a"], "F": ["b"]}), ["I1", MAKER]
        body = self.statements(self.random.randint(1, 4), 2, scope, 0)
        value = ", ".join(self.expression(of, 1, scope) for of in given)
        guard = f"if fuel <= 0 {{ return {zeros(given)} }}; fuel--"
        return f"func {name}(a I0, b F) {results(given)} {{/*B main.{name}*/ {guard}\n{body}\treturn {value}\n}}"

    def program(self):
        parts = ["package main\n", *map(self.interface, INTERFACES)]
        parts += [self.struct(number) for number in range(self.random.randint(3, 6))]
        parts += [HEAD] + [self.bound_of(of) for of in INTERFACES if "C" in self.of_interface[of]]
        for of, own in self.structs:
            parts += [self.method(of, name, is_pointer) for name, is_pointer in own.items()]
        parts += [self.function(name) for name in self.functions]
        body = self.statements(self.random.randint(10, 18), 2, Scope(), 0)
        return "\n".join([*parts, f"func main() {{/*B main.main*/\n{body}\tprintln(fuel)\n}}\n"])


def noting(text):
    """The program with a call of `note` in each function. A literal is named by what it stands in, with its number."""
    parts, around = [], []
    for part in re.split(r"(/\*B \S*\*/|/\*[LD]\*/|/\*E\*/)", text):
        if part.startswith("/*B "):
            around = [[part[4:-2], 0]]
            parts.append(f'note("{part[4:-2]}");')
        elif part in ("/*L*/", "/*D*/"):
            around[-1][1] += 1
            around.append([f"{around[-1][0]}${around[-1][1]}", 0])
            parts.append(f'note("{around[-1][0]}");' if part == "/*L*/" else "")
        elif part == "/*E*/":
            around.pop()
        else:
            parts.append(part)
    return "".join(parts)


def ran(words, folder):
    done = subprocess.run(words, cwd=folder, capture_output=True, text=True, timeout=120)
    return done.returncode, done.stdout, done.stderr


def failures(binary, seed, folder):
    """What is wrong with a program, line by line; None where Go's compiler refuses it."""
    built = folder / "built"
    built.mkdir(parents=True)
    text = Generator(seed).program()
    (folder / "a.go").write_text(text)
    (built / "a.go").write_text(noting(text))
    (built / "notes.go").write_text(NOTES)
    (built / "go.mod").write_text("module m\n\ngo 1.19\n")
    if ran(["go", "build", "-gcflags=-l -N", "-o", "program", "."], built)[0]:
        return None
    status, notes, printed = ran(["./program"], built)
    ours = ran([binary, "-run", "a.go"], folder)
    wrong = []
    if ours[0] != status or status == 0 and ours[1] != printed:
        wrong.append(f"the run: {ours} and not {(status, printed[:200])}")
    edges = {}
    for graph in ("cha", "rta", "vta"):
        edges[graph] = ran([binary, f"-callgraph={graph}", "a.go"], folder)[1].splitlines()
        listed = [edge.split("\t") for edge in edges[graph]]
        called = {(place.split(":")[1], callee) for _, place, callee in listed}
        wrong += [f"{graph} lacks {note}" for note in notes.splitlines() if tuple(note.split(" ", 1)) not in called]
    wrong += [f"{graph} is not within cha" for graph in edges if not set(edges[graph]) <= set(edges["cha"])]
    return wrong


def main(binary, first="1", count="20", folder="/tmp/random_calls"):
    binary, passed, failed, skipped = str(pathlib.Path(binary).resolve()), 0, 0, 0
    for seed in range(int(first), int(first) + int(count)):
        room = pathlib.Path(folder, str(seed))
        shutil.rmtree(room, ignore_errors=True)
        wrong = failures(binary, seed, room)
        if wrong:
            print(f"{seed}:", *wrong[:5], sep="\n  ", flush=True)
        else:
            shutil.rmtree(room)
        skipped, failed, passed = skipped + (wrong is None), failed + bool(wrong), passed + (wrong == [])
    print(f"{passed} passed, {failed} failed, {skipped} skipped")
    return 1 if failed or not passed else 0


if __name__ == "__main__":
    sys.exit(main(*sys.argv[1:]))
