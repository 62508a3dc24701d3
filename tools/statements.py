"""What a check of a crate sees of the crates below it: their statements, as far as it names them.

Statements are types, traits, constants, the views and invariants of types, and the signatures of public functions with their
clauses; `specs/`; and the proofs that a crate above may cite. A check doesn't see bodies, private functions, tests, comments and
notes to the prover's search. Of the statements, it sees those that the crate's own texts name, and those that these name in turn:
by a path, as an import does, or by a bare word within one file. The items of a type are seen if the type is named and their own
name is a word of what is seen. A name that a crate only re-exports counts as the name in the crate that it comes from.

The reader of `.rt` knows the forms of items in this repository. If a file has another form, all of the file counts as seen, for
every crate above.
"""
import os
import re

TESTS = re.compile(r"^#\[cfg\(test\)\]\n(?:pub )?mod (\w+)(?:;| \{\n.*?^\})", re.M | re.S)
TOKEN = re.compile(
    r"""(?P<left>\s+|//[^\n]*|/\*.*?\*/)
    |(?:b?r(?P<marks>\#*)".*?"(?P=marks)|b?"(?:\\.|[^"\\])*")            # a text
    |b?'(?:\\(?:u\{\w+\}|x\w\w|.)|[^\\'])'|'\w+                          # a character, a lifetime
    |\w+'*|::|->|.""",
    re.S | re.X,
)
PASSED_ON = re.compile(r"^pub use (Rattle\.(?!std\b)[\w.]+)(?: as (\w+))?\n", re.M)
WORD = re.compile(r"\w[\w'-]*\Z")
DECLARES = re.compile(r"(?:pub |abbrev |record |data |mod |mutual\b|use )")
CLOSING = {"{": "}", "(": ")", "[": "]"}
RUST_PATH = re.compile(r"\b(\w+)((?:::\w+)+)")
PATH = re.compile(r"\bRattle\.([\w'.-]+?)(?:\.?\{([^}]*)\})?(?=[^\w'.{-]|\.[^\w{]|$)")


class Unreadable(Exception):
    """A form that the reader doesn't know."""


def read(path):
    with open(path, encoding="utf-8") as it:
        return it.read()


def files(folder, ending):
    found = [f"{at}/{name}" for at, _, names in os.walk(folder) for name in names if name.endswith(ending)]
    return sorted(found)


def dependencies(root):
    """Returns the line of each crate in crates.txt, by its name: the text before the colon, and each library."""
    lines = [it.partition(":") for it in read(f"{root}/crates.txt").splitlines() if it.strip() and not it.startswith("#")]
    return {name.split()[0]: [name, *deps.split()] for name, _, deps in lines}


def below(name, lines):
    """Returns the crates of the repository that a crate depends on."""
    found = []
    for dep in lines[name][1:]:
        if dep in lines:
            found += [it for it in [*below(dep, lines), dep] if it not in found]
    return found


def sources(folder):
    """Returns the path and the text of each source of a crate, without its tests."""
    texts = {it: read(it) for it in files(f"{folder}/src", ".rt")}
    tests = {it for text in texts.values() for it in TESTS.findall(text)}
    own = {it: {*os.path.relpath(it, f"{folder}/src")[:-3].split("/")} for it in texts}
    return {it: TESTS.sub("", text) for it, text in texts.items() if not tests & own[it]}


def public_proofs(folder):
    """Returns the path and the text of the proof files of a crate that crates above may cite, and of those that they name."""
    name, seen = os.path.basename(folder), {}
    listed = f"{folder}/proofs/Lib.antt"
    left = re.findall(r"^pub mod (\w+)", read(listed), re.M) if os.path.isfile(listed) else []
    while left:
        path = f"{folder}/proofs/{left.pop()}.antt"
        if path not in seen and os.path.isfile(path):
            seen[path] = read(path)
            left += re.findall(rf"\bRattle\.{name}\.proofs\.(\w+)", seen[path])
    return seen


def group_end(tokens, at):
    """Returns the place after the group of brackets that begins at a place."""
    closing, at = CLOSING[tokens[at]], at + 1
    while at < len(tokens) and tokens[at] != closing:
        if tokens[at] in CLOSING.values():
            break
        at = group_end(tokens, at) if tokens[at] in CLOSING else at + 1
    if at == len(tokens) or tokens[at] != closing:
        raise Unreadable("a bracket without its other")
    return at + 1


def up_to(tokens, at, stops):
    """Returns the place of the first of some tokens outside of groups; one that opens a group counts where it is among them."""
    while at < len(tokens) and tokens[at] not in stops:
        at = group_end(tokens, at) if tokens[at] in CLOSING else at + 1
    if at == len(tokens):
        raise Unreadable("an item without its end")
    return at


def clauses_end(tokens, at):
    """Returns the place after a function's signature and its clauses: that of its body, or of the semicolon instead of a body."""
    while True:
        at = up_to(tokens, at, "{;")
        words = [it for it in tokens[max(0, at - 3) : at] if it != "*"][-2:]
        if tokens[at] == ";" or not {*words[-1:], *words[:1]} & {"requires", "ensures"} and "ghost" not in words[:1]:
            return at
        at = group_end(tokens, at)


class Reader:
    """Takes from a source's tokens the pieces that are seen, each with the names that call it up, and its imports apart from them."""

    def __init__(self, types):
        self.types, self.pieces, self.imports = types, [], []

    def items(self, tokens, at, end, into=None, head=None, names=frozenset()):
        """Reads items up to a place. In a trait, and where one is given to a type, each function is seen, and all that is seen is
        one piece; what else a type has is a piece for each item, with the type's head in front."""
        while at < end:
            at = self.item(tokens, at, into, head, names)

    def note(self, names, tokens, into, head, owners=frozenset()):
        if into is not None:
            into += tokens
        else:
            self.pieces.append((frozenset(names), frozenset(owners), [*head, *tokens, "}"] if head else tokens))

    def item(self, tokens, begin, into, outer, owners):
        at = begin
        while tokens[at : at + 1] == ["#"]:
            at = group_end(tokens, at + 1 + (tokens[at + 1] == "!"))
        notes = [] if "tactic" in tokens[begin:at] else tokens[begin:at]
        if at == len(tokens):
            return at
        is_public = tokens[at] == "pub" and tokens[at + 1] != "("
        head = at
        at += tokens[at] == "pub"
        at = group_end(tokens, at) if tokens[at] == "(" else at
        kind = " ".join(tokens[at : at + 2]) if tokens[at + 1] in ("fn", "use") else tokens[at]
        if kind in ("use", "ghost use"):
            stop = up_to(tokens, at, ";")
            self.imports.append((tokens[head] == "pub", tokens[at + 1 + (tokens[at] == "ghost") : stop]))
            return stop + 1
        if kind == "fn":
            body = clauses_end(tokens, at)
            if is_public or into is not None:
                self.note([tokens[at + 1]], [*notes, *tokens[head:body], ";"], into, outer, owners)
            return body + 1 if tokens[body] == ";" else group_end(tokens, body)
        if kind in ("impl", "trait"):
            body = up_to(tokens, at, "{")
            stop = group_end(tokens, body)
            start, names = [*notes, *tokens[head : body + 1]], owners_of(tokens[at:body], self.types)
            if kind == "trait" or "for" in tokens[at:body]:
                whole = start
                self.items(tokens, body + 1, stop - 1, whole)
                self.note(names, [*whole, "}"], into, outer)
            else:
                self.items(tokens, body + 1, stop - 1, None, start, names)
            return stop
        if kind in ("struct", "enum"):
            last = up_to(tokens, at, "{;")
            stop = group_end(tokens, last) if tokens[last] == "{" else last + 1
        elif kind in ("const", "static", "type", "mod", "ghost"):
            stop = up_to(tokens, at, ";") + 1
            if kind == "mod" and not is_public:
                return stop
        elif kind == "const fn":
            stop = group_end(tokens, clauses_end(tokens, at))
        else:
            raise Unreadable(kind)
        name = next(it for it in tokens[at + 1 + (kind == "const fn") :] if WORD.match(it) and it != "mut")
        self.note([name, *owners], [*notes, *tokens[head:stop]], into, outer)
        return stop


def owners_of(head, types):
    """Returns the names that call up a trait, or what is given to a type: the trait's, or the type's, of those that the crate
    declares; else all words of the head."""
    words = {it for it in head[1:] if re.match(r"\w", it)}
    if head[0] == "trait":
        return {head[1]}
    given = {*head[head.index("for") :]} if "for" in head else words
    return given & types or words


def tokens_of(text):
    return [it.group() for it in TOKEN.finditer(text) if it.lastgroup != "left"]


def each_import(tokens):
    """Returns the path of each name of an import, and what the name is called where it is imported."""
    if "{" in tokens:
        at = tokens.index("{")
        inside, parts, start = [*tokens[at + 1 : group_end(tokens, at) - 1], ","], [], 0
        while start < len(inside):
            stop = up_to(inside, start, ",")
            parts.append(inside[start:stop])
            start = stop + 1
        return [it for part in parts if part for it in each_import([*tokens[:at], *part])]
    path = tokens[: tokens.index("as")] if "as" in tokens else tokens
    return [("".join(path), tokens[-1])]


def imports_of(tokens):
    """Returns all imports of a source, wherever they are in it."""
    starts = [at for at, it in enumerate(tokens) if it == "use"]
    return [it for at in starts for it in each_import(tokens[at + 1 : up_to(tokens, at, ";")])]


def words_of(text):
    """Returns the words of a text, those with a dash in them and those of two parts too."""
    return {*re.findall(r"\w+'*", text), *re.findall(r"[\w'][\w'-]*", text), *re.findall(r"\b\w+::\w+", text)}


def each_path(text):
    """Returns the path of each name of a `use` of definitions, and what the name is called there."""
    head, brace, inside = text.partition("{")
    parts = [it.strip() for it in inside.rpartition("}")[0].split(",")] if brace else [""]
    pairs = [(head + it).split(" as ") for it in parts if it or not brace]
    return [(it[0].strip(), it[-1].strip().rpartition(".")[2] if len(it) == 1 else it[-1].strip()) for it in pairs]


def names_of(block):
    """Returns the names that make a definition seen: its own, or those of several in one block, and constructors; nothing if one isn't
    a word."""
    declared = re.findall(r"^(?:abbrev |record |data |mod |pub )+([^\s({]+)", block, re.M)
    within = re.findall(r"^ +(?:abbrev |record |data |pub )*([\w'-]+) :", block, re.M)
    return frozenset([*declared, *within]) if declared and all(re.fullmatch(r"[\w'-]+", it) for it in declared) else None


def without_remarks(text):
    """Returns a text without the comments that fill a line, of either language."""
    return re.sub(r"^[ \t]*(?://|--).*\n", "", text, flags=re.M)


def without_notes(text):
    return re.sub(r"^[ \t]*--.*\n", "", text, flags=re.M)


class Piece:
    """What is seen of a crate where it is called up: by one of its names, or always where it has none. What a type has, a method
    say, is called up where the type is and its own name is a word of what is seen."""

    def __init__(self, names, owners, text):
        self.names, self.owners, self.text = names, owners, text

    def placed(self, crate, place, crates):
        self.place, self.words, self.calls = place, words_of(self.text), calls_of(crate, place, self.text, crates)
        names = self.owners or self.names or ()
        self.called_by = {(at, it) for at in (room_of(crate, place.endswith(".rt")), place) for it in names}
        return self

    def is_called(self, calls, words):
        return self.names is None or not self.called_by.isdisjoint(calls) and not (self.owners and self.names.isdisjoint(words))


def room_of(crate, is_code):
    return f"{crate}/src" if is_code else crate


def calls_of(crate, place, text, crates):
    """Returns the names that a text calls up: with their crate those that it names by a path, as an import does, and with its own
    place all others, which are of the same file."""
    found = {(place, it) for it in words_of(re.sub(PATH, " ", re.sub(RUST_PATH, " ", text)))}
    for owner, path in re.findall(RUST_PATH, text):
        names = path.split("::")[1:]
        own = owner not in crates
        found |= {(room_of(crate if own else owner, True), it) for it in [*names, *([] if own else [f"::{names[0]}"])]}
        found |= {(place, it) for it in [owner, *names]} if own else set()
    for path, inside in re.findall(PATH, text):
        owner, *parts = path.strip(".").split(".")
        names = [it.split(" as ")[0].strip() for it in inside.split(",")] if inside else [parts[-1], ".".join(parts)]
        found |= {(room_of(owner, "declared" in parts), it) for it in [*names, *(parts if {"declared", "proofs"} & {*parts} else [])]}
    return found


class Statements:
    """The statements of a repository's crates, each read once."""

    def __init__(self, root):
        self.root, self.crates = root, sorted(os.listdir(f"{root}/crates"))
        self.passed_on = {name: path for it in self.crates for name, path in self.doors(it).items()}
        self.known = {}

    def folder(self, crate):
        return f"{self.root}/crates/{crate}"

    def doors(self, crate):
        """Returns the names that a crate passes on of other crates of the repository, and the path of each there."""
        found = {}
        for doors in ("specs", "proofs"):
            path = f"{self.folder(crate)}/{doors}/Lib.antt"
            for place, name in re.findall(PASSED_ON, read(path)) if os.path.isfile(path) else []:
                found[f"Rattle.{crate}.{doors}.{name or place.rpartition('.')[2]}"] = place
        path = f"{self.folder(crate)}/src/lib.rt"
        tokens = tokens_of(TESTS.sub("", read(path))) if os.path.isfile(path) else []
        for at, token in enumerate(tokens):
            if token == "use" and tokens[at - 1] == "pub" and tokens[at + 1] in self.crates:
                found.update((f"{crate}::{name}", place) for place, name in each_import(tokens[at + 1 : up_to(tokens, at, ";")]))
        return found

    def resolved(self, text):
        """Returns a text with each path through a crate that only passes its name on as the path of where it comes from."""
        after = re.sub(r"\bRattle\.\w+\.(?:specs|proofs)\.\w+|\b\w+::\w+", lambda it: self.passed_on.get(it[0], it[0]), text)
        return text if after == text else self.resolved(after)

    def of_source(self, path, text, types):
        """Returns the pieces that are seen of a source."""
        tokens, reader = tokens_of(text), Reader(types)
        try:
            reader.items(tokens, 0, len(tokens))
            imports = [(keeps, it) for keeps, words in reader.imports for it in each_import(words)]
        except (Unreadable, IndexError, StopIteration):
            return [Piece(None, frozenset(), self.resolved(text))]
        is_door = path.endswith("/src/lib.rt")
        passed_on = {it for keeps, it in imports if is_door and keeps and it[0].partition("::")[0] in self.crates}
        own = [it for _, it in imports if it not in passed_on]
        pieces = [(names, owners, re.sub(" :: ", "::", " ".join(words))) for names, owners, words in reader.pieces]
        pieces = [Piece(names, owners, self.with_imports(names, text, own)) for names, owners, text in pieces]
        doors = [it for keeps, it in imports if keeps and it not in passed_on]
        return pieces + [Piece(frozenset([f"::{name}"]), frozenset(), f"pub use {place} as {name}") for place, name in doors]

    def with_imports(self, names, text, imports):
        """Returns a piece's text after the imports whose names it has, or that make it seen."""
        bare, words = text.replace(" ", ""), words_of(text) | (names or frozenset())
        kept = [it for it in imports if (it[1] in words if WORD.match(it[1]) else all(part in bare for part in it[0].rpartition(".")[2].split("◌")))]
        return "\n".join([*sorted(self.resolved(f"{place} as {name}") for place, name in kept), self.resolved(text)])

    def of_definitions(self, path, text):
        """Returns the pieces that are seen of a file of definitions: each definition, and each name that is passed on."""
        imports, pieces, blocks = [], [], []
        for line in without_notes(text).splitlines():
            if DECLARES.match(line):
                blocks.append(line)
            elif blocks:
                blocks[-1] += f"\n{line}"
            elif line.strip():
                return [Piece(None, frozenset(), self.resolved(text))]
        module = f"specs.{os.path.basename(path)[:-5]}"
        for block in (it.rstrip() for it in blocks):
            found = re.match(r"(pub )?use (.*)", block, re.S)
            for place, name in each_path(found[2]) if found else []:
                imports.append((place, name))
                pieces += [(frozenset([name, module]), f"pub use {place}")] if found[1] else []
            if not found:
                names = names_of(block)
                pieces.append((names and names | {module}, block))
        return [Piece(names, frozenset(), self.with_imports(names, text, imports)) for names, text in pieces]

    def of(self, crate):
        """Returns the pieces of a crate of which a check of a crate above may see some."""
        if crate not in self.known:
            folder, found, own = self.folder(crate), [], sources(self.folder(crate))
            types = {it for text in own.values() for it in re.findall(r"\b(?:struct|enum|trait) (\w+)", text)}
            for path, text in own.items():
                found += [(path, it) for it in self.of_source(path, text, types)]
            for path in files(f"{folder}/specs", ".antt"):
                text = read(path)
                found += [(path, it) for it in self.of_definitions(path, re.sub(PASSED_ON, "", text) if path.endswith("/Lib.antt") else text)]
            for path, text in public_proofs(folder).items():
                names = None if path.endswith("/Lib.antt") else frozenset([os.path.basename(path)[:-5]])
                found.append((path, Piece(names, frozenset(), self.resolved(without_notes(text)))))
            self.known[crate] = [it.placed(crate, os.path.relpath(path, self.root), self.crates) for path, it in found]
        return self.known[crate]

    def seen_by(self, crate, crates):
        """Returns all that a check of a crate sees of crates below: what its own texts name, and what that names in turn. A name
        with its crate's in front calls up what that crate has of the name, and one without what its own crate has. What a type
        has is called up where both names are."""
        text, left, seen = without_remarks(self.whole(crate)), [it for other in sorted(crates) for it in self.of(other)], []
        calls, words = calls_of(crate, "", text, self.crates), words_of(text)
        while True:
            called = [it for it in left if it.is_called(calls, words)]
            if not called:
                return "".join(sorted(f"\n{it.place}\n{it.text}" for it in seen))
            seen += called
            left = [it for it in left if not it.is_called(calls, words)]
            calls, words = calls.union(*(it.calls for it in called)), words.union(*(it.words for it in called))

    def whole(self, crate):
        """Returns a crate's own sources without tests and comments, its definitions, its proofs and its edits, with where each name
        comes from."""
        folder = self.folder(crate)
        texts = {path: without_remarks(text) for path, text in sources(folder).items()}
        imports = {self.resolved(f"{place} as {name}") for text in texts.values() for place, name in imports_of(tokens_of(text))}
        for part, ending in (("specs", ".antt"), ("proofs", ".antt"), ("must-fail", ".edit")):
            texts.update((path, without_remarks(read(path))) for path in files(f"{folder}/{part}", ending))
        parts = [f"\n{os.path.relpath(path, self.root)} {len(texts[path])}\n{self.resolved(texts[path])}" for path in sorted(texts)]
        return "\n".join(["".join(parts), *sorted(imports)])
