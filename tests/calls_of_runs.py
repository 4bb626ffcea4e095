#!/usr/bin/env python3
"""usage: calls_of_runs.py BINARY FILE..

Whether each call of a run is an edge of the three call graphs. Each function of a program is made to print its name when it
is entered, and a mark when it is left, which tells the calls that a run makes; each must stand in each listing, by caller and
callee. Programs with goroutines are passed over, since what they print is mixed. Nothing that is tested here is proved: the
graphs meet their definitions, but that those hold all calls of all runs is open."""
import pathlib, re, subprocess, sys, tempfile

TOKEN = re.compile(r'\s+|//[^\n]*|/\*.*?\*/|(?P<token>"(?:\\.|[^"\\])*"|`[^`]*`|\'(?:\\.|[^\'\\])*\'|\w+|.)', re.S)
CLOSING = {'(': ')', '[': ']', '{': '}'}
# What may stand before `func` in a type.
IN_TYPES = {']', 'chan', '*', 'map'}


class Source:
    def __init__(self, text):
        found = [m for m in TOKEN.finditer(text) if m['token']]
        self.text = text
        self.words = [m['token'] for m in found] + ['']
        self.starts = [m.start() for m in found] + [len(text)]
        self.ends = [m.end() for m in found] + [len(text)]

    def closing(self, at):
        """The place of the bracket that closes the one at a place."""
        opening, depth = self.words[at], 0
        while True:
            if self.words[at] == opening:
                depth += 1
            elif self.words[at] == CLOSING[opening]:
                depth -= 1
            if depth == 0:
                return at
            at += 1

    def on_one_line(self, at):
        """Whether no line ends before the token at a place."""
        return '\n' not in self.text[self.ends[at - 1]:self.starts[at]]

    def behind_type(self, at):
        word = self.words[at]
        if word == '*':
            return self.behind_type(at + 1)
        if word == '[':
            return self.behind_type(self.closing(at) + 1)
        if word == 'map':
            return self.behind_type(self.closing(at + 1) + 1)
        if word == 'chan':
            return self.behind_type(at + 3 if self.words[at + 1] == '<' else at + 1)
        if word == '<':
            return self.behind_type(at + 3)
        if word == 'func':
            return self.behind_signature(at + 1)
        if word in ('struct', 'interface'):
            return self.closing(at + 1) + 1
        if word == '(':
            return self.closing(at) + 1
        return at + 3 if self.words[at + 1] == '.' else at + 1

    def behind_signature(self, at):
        behind = self.closing(at) + 1
        word = self.words[behind]
        if self.on_one_line(behind) and (word in ('*', '[', '(', '<') or re.match(r'\w', word)):
            return self.behind_type(behind)
        return behind

    def declared(self, at):
        """The name of the function that is declared at a `func`, and where its parameters are."""
        if self.words[at + 1] != '(':
            return 'main.' + self.words[at + 1], at + 2
        end = self.closing(at + 1)
        pointer = '*' if '*' in self.words[at + 2:end] else ''
        return f'({pointer}main.{self.words[end - 1]}).{self.words[end + 1]}', end + 2

    def is_type(self, at):
        """Whether the `func` at a place within an expression stands in a type."""
        before = self.words[at - 1]
        return before in IN_TYPES or before == '-' and self.words[at - 3] == 'chan'

    def bodies(self):
        """Where the body of each function begins, with the function's name."""
        around, depth, inits, outer_literals, at = [], 0, 0, 0, 0
        while at < len(self.words):
            while around and at > around[-1][0]:
                around.pop()
            word, name = self.words[at], None
            if word == 'func' and depth == 0 and not around and (at == 0 or not self.on_one_line(at)):
                name, params = self.declared(at)
                if name == 'main.init':
                    inits += 1
                    name = f'main.init#{inits}'
                body = self.behind_signature(params)
            elif word == 'func':
                body = self.behind_signature(at + 1)
                if self.words[body] == '{' and self.on_one_line(body) and not self.is_type(at):
                    if around:
                        around[-1][2] += 1
                        name = f'{around[-1][1]}${around[-1][2]}'
                    else:
                        outer_literals += 1
                        name = f'main.init${outer_literals}'
            if name and self.words[body] == '{':
                yield self.ends[body], name
                around.append([self.closing(body), name, 0])
                at = body
            elif not around:
                depth += {'{': 1, '(': 1, '}': -1, ')': -1}.get(word, 0)
            at += 1


def telling(text):
    """The program, whose functions tell when they are entered and left."""
    for at, name in reversed(list(Source(text).bodies())):
        text = text[:at] + f' println("@@>{name}"); defer println("@@<"); ' + text[at:]
    return text


def calls(told):
    """Callers and callees, as a run has told them."""
    running, found = [], set()
    for mark, name in re.findall(r'@@([<>])(.*)\n', told):
        if mark == '<':
            running.pop()
            continue
        if running:
            found.add((running[-1], name))
        running.append(name)
    return found


def missed(binary, path):
    """How many calls a run makes, and those that a graph lacks; None where nothing can be told."""
    text = path.read_text()
    if re.search(r'\bgo\b', text):
        return None
    with tempfile.TemporaryDirectory() as folder:
        (pathlib.Path(folder) / path.name).write_text(telling(text))

        def say(*words):
            done = subprocess.run([binary, *words, path.name], cwd=folder, stdin=subprocess.DEVNULL, capture_output=True)
            return done.stdout.decode(errors='replace')

        found, lacks = calls(say('-run', '-bound=20000000')), []
        for graph in ('cha', 'rta', 'vta'):
            lines = (line.split('\t') for line in say('-callgraph=' + graph).splitlines())
            edges = {(caller, callee) for caller, _, callee in lines}
            lacks += [(graph, *call) for call in sorted(found - edges)]
        return len(found), lacks


def main():
    if len(sys.argv) < 3:
        sys.exit(__doc__)
    binary, total, bad = str(pathlib.Path(sys.argv[1]).resolve()), 0, 0
    for path in map(pathlib.Path, sys.argv[2:]):
        answer = missed(binary, path)
        if answer is None:
            continue
        total += answer[0]
        for graph, caller, callee in answer[1]:
            print(f'{path}: {graph} has no edge from {caller} to {callee}')
            bad += 1
    print(f'calls of runs: {total}, not in a graph: {bad}')
    sys.exit(1 if bad or not total else 0)


main()
