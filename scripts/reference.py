#!/usr/bin/env python3
"""A second reading of docs/RULES.md and docs/SCENARIO.md, in Python: does the outside commands and the direct questions.

It shares no code with the program. `reference.py < stdin > stdout` made crates/linenplane/stdout."""
import sys


class Wrong(Exception):
    pass


class Refused(Exception):
    pass


CALLS = "open reconcile created removed doubtful renamed step run public close show".split()


def encode(b):
    return "%" if not b else "".join(chr(c) if 33 <= c <= 126 and c != 37 else f"%{c:02X}" for c in b)


def decode(w):
    if w == b"%":
        return b""
    out, i = bytearray(), 0
    while i < len(w):
        if w[i] == 37:
            pair = w[i + 1:i + 3]
            if len(pair) < 2 or any(c not in b"0123456789ABCDEF" for c in pair):
                raise Wrong("no text:")
            out.append(int(pair, 16))
            i += 3
        elif 33 <= w[i] <= 126:
            out.append(w[i])
            i += 1
        else:
            raise Wrong("no text:")
    return bytes(out)


def path_of(text):
    if len(text) > 64:
        raise Refused(1)
    if 0 in text:
        raise Refused(2)
    names = []
    for part in text.split(b"/"):
        if part == b"..":
            names = names[:-1]
        elif part not in (b"", b"."):
            names.append(part)
    if not fits(names):
        raise Refused(4)
    return tuple(names)


def fits(names):
    return len(names) <= 8 and sum(len(n) + 1 for n in names) <= 64


def written(path):
    return encode(b"/" + b"/".join(path))


def number(w, most):
    if not w or any(c not in b"0123456789" for c in w) or int(w) >= 2 ** 64:
        raise Wrong("no number:")
    if int(w) > most:
        raise Wrong("too large a number:")
    return int(w)


def scan_cause(w):
    if w == b"not-found":
        return "not-found"
    if w.startswith(b"number:"):
        return f"number:{number(w[7:], 2 ** 32 - 1)}"
    raise Wrong("no cause of a scanner:")


class Catalogue:
    def __init__(self):
        self.nodes = {(): "dir"}

    def put(self, path, node):
        if path not in self.nodes and len(self.nodes) >= 64:
            raise Wrong("the catalogue has 64 nodes at")
        self.nodes[path] = node

    def strike(self, path):
        self.nodes = {p: n for p, n in self.nodes.items() if p[:len(path)] != path}

    def go(self, path, last):
        """The place that a path leads to, and its node; or a cause as text."""
        passed = 0
        while True:
            for i in range(len(path) + 1):
                here = self.nodes.get(path[:i])
                if here is None:
                    return "not-found"
                if isinstance(here, tuple) and (i < len(path) or last):
                    break
                if i == len(path):
                    return path, here
                if here == "file":
                    return "number:20"
            passed += 1
            if passed > 8:
                return "number:40"
            path = here + path[i:]
            if not fits(path):
                return "not-found"

    def look(self, path, follow):
        for last in ([False, True] if follow else [False]):
            got = self.go(path, last)
            if isinstance(got, str):
                return "other" if last and got == "not-found" else got
            at, node = got
            if node == "dir":
                return "directory " + written(at)
            if node == "file":
                return "other"
        return "symlink"

    def items(self, path):
        got = self.go(path, True)
        if isinstance(got, str):
            return got
        at, node = got
        if node != "dir":
            return "number:20"
        return ["item " + encode(p[-1]) for p in sorted(self.nodes) if p and p[:-1] == at]


class Sheet:
    def __init__(self):
        self.classes, self.lists = {}, {}

    def listing(self, path, value):
        if path not in self.lists and len(self.lists) >= 256:
            raise Wrong("the sheet is full at")
        self.lists[path] = value

    def strike(self, path):
        self.classes = {k: v for k, v in self.classes.items() if k[0][:len(path)] != path}
        self.lists = {k: v for k, v in self.lists.items() if k[:len(path)] != path}

    def look(self, path, follow):
        return self.classes.get((path, follow), "not-found")

    def items(self, path):
        return self.lists.get(path, "not-found")


class Session:
    def __init__(self):
        self.back, self.book, self.scan, self.rules, self.passing = None, set(), Catalogue(), {}, False

    def request(self, watch, path):
        if self.back is None:
            raise Wrong("a board or a roll comes before")
        kind, room = self.back
        full = watch and path not in self.book and len(self.book) >= (room if kind == "board" else 128)
        if full:
            answer = ("max-files", None)
        elif kind == "board":
            answer = ("done", None) if watch or path in self.book else ("watch-not-found", None)
        else:
            answer = room.pop(0) if room else ("done", None)
        if watch and answer[0] == "done":
            self.book.add(path)
        if not watch and answer[0] in ("done", "watch-not-found"):
            self.book.discard(path)
        return answer[0] + (f" at {written(answer[1])}" if answer[1] is not None else "")

    def verdict(self, path):
        return self.rules.get(path[-1], "yes") if path else "yes"


def run(data, write):
    session = Session()
    for at, line in enumerate(data.split(b"\n")[:-1], 1):
        if not line or line.startswith(b"#"):
            continue
        shown = lambda b: "".join(chr(c) if 32 <= c <= 126 else "?" for c in b)
        words = Words(line)
        try:
            session = do(session, words, lambda s: write("> " + shown(line) + "\n" + s), write, shown)
        except Wrong as wrong:
            session.passing = True
            write(f"error {at}: {wrong} {shown(words.last)}\n")


class Words:
    def __init__(self, line):
        self.left, self.last = line.split(b" "), b"the line's start"

    def next(self):
        if not self.left:
            return None
        word = self.left.pop(0)
        if not word:
            raise Wrong("two spaces, or one at an end, after")
        self.last = word
        return word

    def word(self):
        word = self.next()
        if word is None:
            raise Wrong("a word is missing after")
        return word

    def end(self):
        if self.next() is not None:
            raise Wrong("a word too many:")

    def path(self, word=None):
        try:
            return path_of(decode(word or self.word()))
        except Refused:
            raise Wrong("no path within 8 names and 64 bytes:")

    def name(self, word):
        name = decode(word) if word else b""
        if not word:
            raise Wrong("no text:")
        if name in (b"", b".", b"..") or b"/" in name or 0 in name or len(name) > 255:
            raise Wrong("no name:")
        return name

    def follow(self):
        word = self.word()
        if word not in (b"follow", b"nofollow"):
            raise Wrong("neither follow nor nofollow:")
        return word == b"follow"


def do(session, words, told, write, shown):
    command = words.word()
    if command == b"scenario":
        name = words.word()
        words.end()
        write("== " + shown(name) + "\n")
        return Session()
    if session.passing:
        return session
    outside(session, command, words) or ask(session, command, words, told)
    return session


def outside(s, command, words):
    c = command.decode("latin-1")
    if c == "board":
        slots = number(words.word(), 1000)
        words.end()
        if s.back is not None:
            raise Wrong("there is a backend already:")
        if not 1 <= slots <= 64:
            raise Wrong("a board has 1 to 64 slots:")
        s.back = ("board", slots)
    elif c == "roll":
        words.end()
        if s.back is not None:
            raise Wrong("there is a backend already:")
        s.back = ("roll", [])
    elif c == "answer":
        word = words.word()
        if word.startswith(b"io:"):
            cause = f"io:{number(word[3:], 2 ** 32 - 1)}"
        elif word in (b"done", b"path-not-found", b"watch-not-found", b"max-files", b"other"):
            cause = word.decode()
        else:
            raise Wrong("no answer of a backend:")
        carried = words.next()
        if carried is not None and cause == "done":
            raise Wrong("done carries no path:")
        if carried is not None:
            carried = words.path(carried)
            words.end()
        if s.back is None or s.back[0] != "roll":
            raise Wrong("the backend is no roll:")
        if len(s.back[1]) >= 1024:
            raise Wrong("the roll is full at")
        s.back[1].append((cause, carried))
    elif c in ("catalogue", "sheet"):
        words.end()
        s.scan = Catalogue() if c == "catalogue" else Sheet()
    elif c in ("dir", "file", "link"):
        path, node = words.path(), c
        if c == "link":
            target = words.word()
            if not target.startswith(b"/"):
                raise Wrong("a link's target is absolute:")
            node = words.path(target)
        words.end()
        if not isinstance(s.scan, Catalogue):
            raise Wrong("the scanner is no catalogue:")
        s.scan.put(path, node)
    elif c == "class":
        path, follow, word = words.path(), words.follow(), words.word()
        if word == b"directory":
            value = "directory " + written(words.path())
        elif word in (b"symlink", b"other"):
            value = word.decode()
        else:
            value = scan_cause(word)
        words.end()
        need_sheet(s)
        if follow and value == "symlink":
            raise Wrong("no link with following on:")
        rows = [p for p, mark in s.scan.classes if mark == follow]
        if path not in rows and len(rows) >= 512:
            raise Wrong("the sheet is full at")
        s.scan.classes[path, follow] = value
    elif c == "list":
        path, items = words.path(), []
        need_sheet(s)
        s.scan.listing(path, items)
        while (word := words.next()) is not None:
            if word.startswith(b"="):
                items.append("item " + encode(words.name(word[1:])))
            elif word.startswith(b"!"):
                items.append("cause " + scan_cause(word[1:]))
            else:
                raise Wrong("neither =NAME nor !CAUSE:")
            if sum(len(rows) for rows in s.scan.lists.values() if isinstance(rows, list)) > 2048:
                raise Wrong("the sheet is full at")
    elif c == "unlist":
        path, cause = words.path(), scan_cause(words.word())
        words.end()
        need_sheet(s)
        s.scan.listing(path, cause)
    elif c == "strike":
        path = words.path()
        words.end()
        s.scan.strike(path)
    elif c == "filter":
        words.end()
        s.rules = {}
    elif c in ("deny", "balk"):
        name = words.name(words.word())
        fault = f"fault:{number(words.word(), 65535)}" if c == "balk" else "no"
        words.end()
        kept = [n for n, v in s.rules.items() if (v == "no") == (fault == "no") and n != name]
        if len(kept) >= 16:
            raise Wrong("the filter has 16 names at")
        s.rules[name] = fault
    elif c == "faults":
        number(words.word(), 65536)
        words.end()
    else:
        return False
    return True


def need_sheet(s):
    if not isinstance(s.scan, Sheet):
        raise Wrong("the scanner is no sheet:")


def ask(s, command, words, told):
    c = command.decode("latin-1")
    if c == "fill":
        words.end()
        if s.back is None:
            raise Wrong("a board or a roll comes before")
        if s.back[0] != "board":
            raise Wrong("the backend is no board:")
        return told(f"fill {len(s.book) * 100 // s.back[1]}\n")
    if c not in ("look", "items", "watch", "unwatch", "verdict"):
        raise Wrong("a call that is not there yet:" if c in CALLS else "no command:")
    text = decode(words.word())
    follow = words.follow() if c == "look" else None
    words.end()
    try:
        path = path_of(text)
    except Refused as refused:
        return told(f"refused {refused}\n")
    if c == "look":
        return told(s.scan.look(path, follow) + "\n")
    if c == "items":
        items = s.scan.items(path)
        if isinstance(items, str):
            return told(items + "\n")
        return told("".join(i + "\n" for i in items) + f"items {len(items)}\n")
    if c == "verdict":
        return told(s.verdict(path) + "\n")
    return told(f"{c} {written(path)} {s.request(c == 'watch', path)}\n")


run(sys.stdin.buffer.read(), sys.stdout.write)
