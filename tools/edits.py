"""Tries edits: wrong bodies that the prover has to refuse. For ./test and for tools/must-fail-too.

  edits.py FOLDER [CRATE..]

It tries the edits crates/CRATE/FOLDER/*.edit, those of all crates if none is named, over the
libraries that stand in the crates' out/. A check proves each function by itself, against the
contracts of those that it calls, and says of each what isn't proved. So edits of different
functions of a crate are tried in one check, of these functions alone. An edit that changes anything
else than the bodies of functions, or of which such a check says nothing certain, is tried alone, by
a check of its whole crate. As many crates are tried side by side as there are processors, or
RT_JOBS.

An edit falls in one of three ways, and each line names that of an edit:

  goal  A goal of a function that it changes isn't proved. The search, which finds it without the
        edit, doesn't find it, or finds values at which it is false. Or there is a proof by hand,
        whose text still fits but for its end: a tactic that has to find the goal there doesn't, or
        what stands there proves something else. In that case the edit is checked once more with a
        search in that place, which is told what stood there, and it doesn't find the goal either.
        A proof has several ends where it loses nothing of its goal, as behind a case.
  text  The text of a proof by hand no longer fits, within; or also at its end, where the edit adds
        a branch, behind which the proof knows less; or a proof is lacking, since the edit adds a
        way out of a function for which such goals are proved by hand. Nobody knows then of any
        goal that it is false.
  name  A name in the text of a proof is gone.

Only those that fall by a goal show that a contract refuses the edit, and pass. Of the others those
pass that stand in tests/edits-by-text.txt, each with its reason; it fails to stand there without need.

What came of each edit is kept in out/edits, under a sum of all that it rests on, and with --anew
nothing is taken from there. With --beside LOG the libraries are those of out/tree, which are proved
at the same time: the edits of a crate are tried once LOG says that those below it are proved. Each
line tells of an edit, then one tells how many fell in each way, and the last line is the sum:
'N passed, M failed'.
"""

import argparse

import collections
import concurrent.futures
import glob
import hashlib
import os
import re
import shutil
import signal
import subprocess
import sys
import tempfile
import threading
import time

# How many edits are tried in one check at most: where it says nothing certain, half of them are
# tried again.
MOST = 32

# A function of a file: its first line, the line that opens its body, its last line, the words of
# its place in the file, and whether another function can take over what its text says.
Function = collections.namedtuple("Function", "file first opens last words is_shared")

# What came of an edit: how it fell, if it did, a line that shows it, and what has to be looked at
# again, so long as it isn't known how it fell.
Found = collections.namedtuple("Found", "kind said again", defaults=[()])
GOAL, TEXT, NAME, NONE, OPEN = "goal", "text", "name", "none", "open"
# An end of the answer to a goal in a file: the answer's name, and the term.
End = collections.namedtuple("End", "file name tokens")
# A word, a bracket or a sign of the text of a proof, and its place.
Token = collections.namedtuple("Token", "text line column")

HEAD = re.compile(r"( *)(?:pub(?:\([a-z: ]+\))? )?(const )?(?:unsafe )?fn (\w+)")
BLOCK = re.compile(r"( *)(?:pub(?:\([a-z: ]+\))? )?(?:unsafe )?(impl|trait|mod)\b(.*)")
# A place that a check names, and what it says there.
SAID = re.compile(r"(note: )?(?:\./)?((?:src|specs|proofs)/\S+?):(\d+):(\d+): (.*)")
# The files of a function's own proof. Others are shared.
OF_A_FUNCTION = ("Answers.antt", "Invariants.antt", "Proof.antt")
# What a check says of a proof file that names what isn't there any more, or rests on such a file.
LOST = re.compile(r"has no field|is not in scope|has no `|was not admitted")
# What it says of a term that proves something else than it should, and of a tactic that found no
# proof.
OTHER = re.compile(r"two types|expected type")
NO_PROOF = re.compile(r"error: `[^`]+`: `(search|grind|omega|cc)`: (?!.*unsolved)")
# What it says of a function whose goals it hasn't tried.
WAITS = re.compile(r"^note: `search` has not tried the goals of `(\S+)`", re.M)
# What it says of a goal that isn't only not proved, but false at some values.
IS_FALSE = "allow values at which this goal is false"
# What makes a way out of a function, for which there are goals of its own.
EXIT = re.compile(r"\breturn\b|\?|=>")
# What parts the ways through it, behind which less is known of what was before.
BRANCH = re.compile(r"\b(if|else|match|while|for|loop|return)\b|\?|=>")
# The tokens of a proof file.
TOKEN = re.compile(r"[()\[\]{},;|]|[^\s()\[\]{},;|]+")
OPENING, CLOSING = ("(", "[", "{"), (")", "]", "}")
# Calls whose last argument proves their goal, written in another way, by how many words they have.
REWRITES = {("rw", 3), ("simp", 3), ("subst", 4)}
# The answer to a goal.
ANSWER = re.compile(r"^pub (\S+) : goal\.\1$", re.M)
# The list of edits that may fall by the text of a proof or by a name, each with the reason.
REASONS = "tests/edits-by-text.txt"
# What a crate is made from.
PARTS = ("src", "specs", "proofs")
# What the log of a proof of the tree says of a crate that is proved, and at its end.
PROVED = re.compile(r"^rt: (\w+) (?:proved|is kept: .*)$", re.M)
ENDED = re.compile(r"^\d+ passed, \d+ failed$", re.M)


def read(file):
    with open(file, encoding="utf-8") as opened:
        return opened.read()


def files_of(folder):
    """All files that the crate in a folder is made from."""
    return sorted(
        f"{at}/{name}"
        for part in PARTS
        for at, _, names in os.walk(f"{folder}/{part}")
        for name in names
    )


class Crate:
    """A crate: its folder, those that it names in crates.txt, and its functions."""

    def __init__(self, name, named):
        self.name, self.folder = name, f"crates/{name}"
        self.direct = named[name]
        self.below, waiting = [], [name]
        while waiting:
            for other in named.get(waiting.pop(), []):
                if other in named and other not in self.below:
                    self.below.append(other)
                    waiting.append(other)
        self.named = named
        self.functions = [
            function
            for file in sorted(glob.glob(f"{self.folder}/src/**/*.rt", recursive=True))
            for function in functions_of(self.folder, os.path.relpath(file, self.folder))
        ]

    def words(self, kit, tree):
        """What a check of it is told, over the libraries of this tree."""
        is_program = os.path.isfile(f"{self.folder}/src/main.rt")
        words = ["--crate-name", self.name, "src/main.rt" if is_program else "src/lib.rt"]
        for name in ["std", *self.direct]:
            own = f"{tree}/crates/{name}/out/rlib/{name}.rlib"
            library = own if name in self.named else f"{kit}/rlibs/{name}.rlib"
            words += ["--extern", f"{name}={library}"]
        for name in self.below:
            words += ["-L", f"dependency={tree}/crates/{name}/out/rlib"]
        words += ["-L", f"dependency={kit}/rlibs"]
        words += ["--antt-project", f"{kit}/rattle/logic/antt-project.json"]
        words += ["--logic-built", f"{kit}/logic_built", "--links", f"{self.name}="]
        return [*words, "--jobs", "1"]


class Edit:
    """An edit of a crate, and the functions whose bodies it changes, if it changes nothing else."""

    def __init__(self, crate, file):
        self.crate, self.file = crate, file
        self.name = f"{crate.name}/{os.path.basename(file)}"
        self.lines = lines_of(crate.folder, file)
        self.changed = functions_changed(self.lines, crate.functions)


def lines_of(folder, edit):
    """The lines that an edit changes, by file and number from 0 on; none where it can't be made. It
    adds and removes none."""
    file, old, texts = "", "", {}
    for line in read(edit).split("\n"):
        if line.startswith("file: "):
            file = line.removeprefix("file: ").strip()
        elif line.startswith("old: "):
            old = line.removeprefix("old: ")
        elif line.startswith("new:"):
            if not old or not os.path.isfile(f"{folder}/{file}"):
                return {}
            text = texts.get(file) or read(f"{folder}/{file}")
            if text.count(old) != 1:
                return {}
            texts[file] = text.replace(old, line.removeprefix("new:").removeprefix(" "))
            old = ""
    changed = {}
    for file, text in texts.items():
        pairs = zip(read(f"{folder}/{file}").split("\n"), text.split("\n"))
        changed.update({(file, at): new for at, (old, new) in enumerate(pairs) if old != new})
    return changed


def indent_of(line):
    return len(line) - len(line.lstrip(" "))


def beginning_of(lines, head, indent):
    """The first line of the documentation and the attributes of a function whose head is here."""
    while head > 0 and lines[head - 1].strip() and indent_of(lines[head - 1]) >= indent:
        if lines[head - 1].endswith((";", "{", "}")):
            break
        head -= 1
    return head


def opening_of(lines, head, indent):
    """The line that opens the body of a function whose head begins here, if it has one."""
    for number in range(head, len(lines)):
        line = lines[number]
        if number > head and line.strip() and indent_of(line) < indent:
            return None
        if number == head or indent_of(line) == indent:
            if line.endswith(("{", "{}")):
                return number
            if line.endswith(";"):
                return None
    return None


def closing_of(lines, opens, indent):
    """The line that closes what is opened here, in the layout of `rt fmt`."""
    if lines[opens].endswith("{}"):
        return opens
    closes = " " * indent + "}"
    return next(it for it in range(opens + 1, len(lines)) if lines[it].startswith(closes))


def functions_of(folder, file):
    """The functions of a file that have a body and stand in no other function."""
    lines, blocks, found, number = read(f"{folder}/{file}").split("\n"), [], [], 0
    while number < len(lines):
        line = lines[number]
        if blocks and line.startswith(" " * blocks[-1][0] + "}"):
            blocks.pop()
        head, block = HEAD.match(line), BLOCK.match(line)
        if head:
            indent = len(head[1])
            opens = opening_of(lines, number, indent)
            if opens is not None:
                last = closing_of(lines, opens, indent)
                words = [it[2] for it in blocks] + [head[3]]
                is_shared = bool(head[2]) or any(it[1] == "trait" for it in blocks)
                first = beginning_of(lines, number, indent)
                found.append(Function(file, first, opens, last, tuple(words), is_shared))
                number = last
        elif block:
            opens = opening_of(lines, number, len(block[1]))
            if opens is not None and not lines[opens].endswith("{}"):
                text = " ".join(it.strip() for it in lines[number : opens + 1])
                blocks.append((len(block[1]), block[2], text))
                number = opens
        number += 1
    return found


def parameters_of(text):
    """The parameters of an `impl` block, in angle brackets at the beginning, and what follows."""
    depth = 0
    for place, sign in enumerate(text):
        depth += (sign == "<") - (sign == ">" and text[place - 1] not in "-=")
        if depth == 0:
            return text[: place + 1] if sign == ">" else "", text[place + (sign == ">") :]
    return "", text


def type_name(text, parameters):
    """A type or a trait as a check's names have it: its words but for paths and parameters."""
    words = re.findall(r"(?<!')\b[A-Za-z_]\w*\b(?!::)", text)
    return "".join(it[0].upper() + it[1:] for it in words if it not in parameters)


def block_name(text):
    """The name that a check gives an `impl` block: its type's, and then its trait's."""
    head = re.sub(r"^(unsafe )?impl", "", text.rstrip("{ ")).split(" where ")[0]
    given, rest = parameters_of(head)
    parameters = re.findall(r"[<,] *(?:const )?(\w+)", given)
    trait, is_of_trait, self_type = rest.partition(" for ")
    names = [self_type, trait] if is_of_trait else [trait]
    return "".join(type_name(it, parameters) for it in names)


def end_of_name(function):
    """How the name of a function ends in what a check prints; below its crate it is that of a
    function that stands in no block."""
    *blocks, name = function.words
    if blocks:
        return f"{block_name(blocks[-1])}::{name}"
    module = function.file.removeprefix("src/").removesuffix(".rt").removesuffix("/mod")
    inner = [] if module in ("lib", "main") else module.split("/")
    return "::".join([*inner, name])


def name_of(function, names):
    """The name of a function among those that a check prints, where just one fits it."""
    end = end_of_name(function)
    if len(function.words) > 1:
        found = [it for it in names if it.endswith(f"::{end}")]
    else:
        found = [it for it in names if it.partition("::")[2] == end]
    return found[0] if len(found) == 1 else None


def functions_changed(lines, functions):
    """The functions whose bodies these lines are of; none where another line is among them, or a
    body that others can take over."""
    changed = set()
    for file, number in lines:
        found = [it for it in functions if it.file == file and it.opens < number <= it.last]
        if not found or any(it.is_shared for it in found):
            return set()
        changed.update(found)
    return changed


def batches_of(edits):
    """Puts edits of different functions together, in as few batches as can be, of like sizes."""
    counts = collections.Counter(it for edit in edits for it in edit.changed)
    number = max([-(-len(edits) // MOST), *counts.values()])
    batches = [[] for _ in range(number)]
    for edit in sorted(edits, key=lambda it: -max(counts[one] for one in it.changed)):
        fit = [it for it in batches if not any(edit.changed & other.changed for other in it)]
        if not fit:
            batches.append([])
            fit = batches[-1:]
        min(fit, key=len).append(edit)
    return [it for it in batches if it]


def only_of(edits):
    """What a check is told that is to be one of the functions of these edits alone, if they change
    nothing else."""
    if not all(it.changed for it in edits):
        return []
    functions = sorted({end_of_name(it) for edit in edits for it in edit.changed})
    return [word for function in functions for word in ("--only", function)]


def make(crate, folder, edits, ends=()):
    """Makes a copy of the crate with these edits, in which searches stand for ends of answers."""
    for part in PARTS:
        if os.path.isdir(f"{crate.folder}/{part}"):
            shutil.copytree(f"{crate.folder}/{part}", f"{folder}/{part}")
    changed = {place: line for edit in edits for place, line in edit.lines.items()}
    for file in {file for file, _ in changed}:
        lines = read(f"{folder}/{file}").split("\n")
        for number in range(len(lines)):
            lines[number] = changed.get((file, number), lines[number])
        with open(f"{folder}/{file}", "w", encoding="utf-8") as opened:
            opened.write("\n".join(lines))
    for file in {it.file for it in ends}:
        text = mended(read(f"{folder}/{file}"), [it.tokens for it in ends if it.file == file])
        with open(f"{folder}/{file}", "w", encoding="utf-8") as opened:
            opened.write(text)


def parts_of(tokens, sign):
    """These tokens as they stand between the signs that are in no brackets."""
    parts, depth = [[]], 0
    for token in tokens:
        depth -= token.text in CLOSING
        if token.text == sign and depth == 0:
            parts.append([])
        else:
            parts[-1].append(token)
        depth += token.text in OPENING
    return parts


def words_of(tokens):
    """The head of a call and its arguments, each with its brackets and what is taken of it."""
    found, depth = [], 0
    for token in tokens:
        depth -= token.text in CLOSING
        if depth == 0 and token.text not in CLOSING and not token.text.startswith("."):
            found.append([])
        found[-1].append(token)
        depth += token.text in OPENING
    return found


def chained(tokens):
    """The terms that a term is put together from where nothing is lost of what it proves, as an
    equation from others; itself where it is no such chain."""
    words = words_of(tokens)
    if any(word[0].text in ("let", "λ", "in") for word in words):
        return [tokens]
    chain = parts_of(tokens, "∙")
    if len(chain) > 1:
        return sum(map(chained, chain), []) if all(chain) else [tokens]
    if len(words) == 1 and words[0][0].text == "(" and words[0][-1].text == ")":
        inner = words[0][1:-1]
        return chained(inner) if len(parts_of(inner, ",")) == 1 else [tokens]
    if len(words) == 2 and words[0][0].text == "sym":
        return chained(words[1])
    return [tokens]


def ends_of(tokens):
    """The terms that a term ends in: those that prove its goal, or a part of it where nothing is
    lost of it, as behind a `let`, in each case, and in each part of a pair."""
    if not tokens:
        return []
    head, words = tokens[0].text, words_of(tokens)
    if head == "let":
        depth = 0
        for at, token in enumerate(tokens):
            depth += (token.text == "let") - (token.text == "in")
            if depth == 0:
                return ends_of(tokens[at + 1 :])
        return []
    if head == "λ":
        last = next((at for at, word in enumerate(words) if word[-1].text.endswith(".")), None)
        return [] if last is None else ends_of(sum(words[last + 1 :], []))
    if head in ("elim", "record"):
        between, behind = ("|", "↦") if head == "elim" else (";", "=")
        pairs = [parts_of(it, behind) for it in parts_of(words[-1][1:-1], between)]
        return sum((ends_of(it[1]) for it in pairs if len(it) == 2), [])
    if len(words) == 1 and head == "(" and words[0][-1].text == ")":
        return sum(map(ends_of, parts_of(tokens[1:-1], ",")), [])
    is_chain = len(parts_of(tokens, "∙")) > 1
    if (head, len(words)) in REWRITES and not is_chain and words[2][0].text != "at":
        return ends_of(words[-1])
    return [tokens]


def places_of(end):
    """Where a term begins in which an answer ends, or one of those that it is put together from."""
    places = set()
    for part in [end, *chained(end)]:
        at = end.index(part[0])
        places.add((end[at].line, end[at].column))
        while at > 0 and end[at - 1].text in ("(", "sym"):
            at -= 1
            places.add((end[at].line, end[at].column))
    return places


def answers_of(text):
    """The answers to goals in the text of a file: the name of each, and the terms it ends in."""
    lines, found, goals = text.split("\n"), [], set(ANSWER.findall(text))
    heads = [at for at, line in enumerate(lines) if line and line[0] not in " )]}"]
    for first, last in zip(heads, [*heads[1:], len(lines)]):
        tokens = [
            Token(it[0], number, it.start())
            for number in range(first, last)
            if not lines[number].lstrip().startswith("--")
            for it in TOKEN.finditer(lines[number])
        ]
        signs = [at for at, token in enumerate(tokens) if token.text == "="]
        if signs and tokens[0].text in goals:
            found += [(tokens[0].text, end) for end in ends_of(tokens[signs[0] + 1 :])]
    return found


def text_of(tokens, lines):
    """What the file has from the first of these tokens to the last, in one line."""
    first, last = tokens[0], tokens[-1]
    parts = lines[first.line : last.line + 1]
    parts[-1] = parts[-1][: last.column + len(last.text)]
    parts[0] = parts[0][first.column :]
    return " ".join(it.strip() for it in parts)


def facts_of(end):
    """What a search is told that has to find what a term proves: the terms that this one is put
    together from; of one with holes, which its goal fills, the lemma and what it is given."""
    for part in chained(end):
        words = words_of(part)
        yield from words if any(it.text == "_" for it in part) else [part]


def mended(text, ends):
    """The text of a file in which a search has to find what these terms prove, from what they are
    put together from and all else that is known there."""
    lines = text.split("\n")
    for end in sorted(ends, key=lambda it: (-it[0].line, -it[0].column)):
        told = [text_of(it, lines) for it in facts_of(end)]
        facts = ", ".join(f"({it})" for it in told if "_" not in it.split())
        first, last = end[0], end[-1]
        behind = lines[last.line][last.column + len(last.text) :]
        begins = lines[first.line][: first.column]
        new = f"{begins}(search (rules, arith, {facts})){behind}"
        lines[first.line : last.line + 1] = [new, *[""] * (last.line - first.line)]
    known = " ".join(re.findall(r"^use \S+\.\{(.*)\}$", text, re.M)).replace(",", " ").split()
    for name in {"rules", "arith"}.difference(known):
        lines.insert(0, f"use Rattle.std.proofs.Common.{{{name}}}")
    return "\n".join(lines)


def are_alike(goal, other):
    """Whether two goals of a function are of one kind: of one clause, or of all, at any way out, or
    of a loop's beginning or of its rounds."""
    (one, of_one), (two, of_two) = (it.partition("-clause-")[::2] for it in (goal, other))
    both = set(one.split("-")) ^ set(two.split("-"))
    is_one_kind = one.split("-")[0] == two.split("-")[0] and not both & {"init", "preserved"}
    return is_one_kind and (of_one == of_two or not of_one or not of_two)


class Said:
    """What a check says of the goals of functions that were edited."""

    def __init__(self, crate, edits, output):
        # What goes on in lines that are set in belongs to the one before.
        self.crate, self.lines = crate, re.sub(r"\n +(?=\S)", " ", output).split("\n")
        self.changed = {place: line for edit in edits for place, line in edit.lines.items()}
        self.ends, self.waits = {}, set(WAITS.findall(output))
        told = [it for it in map(SAID.match, self.lines) if it and not it[1]]
        self.errors = [(*os.path.split(it[2]), it[5]) for it in told if it[5].startswith("error")]

    def text(self, file):
        """The text of a file of the crate, if it has it."""
        at = f"{self.crate.folder}/{file}"
        return read(at) if os.path.isfile(at) else ""

    def end_at(self, file, number, column):
        """The end of an answer at this place of a file, if there is one."""
        if file not in self.ends:
            self.ends[file] = {
                place: End(file, name, end)
                for name, end in answers_of(self.text(file))
                for place in places_of(end)
            }
        return self.ends[file].get((number, column))

    def adds(self, sign, functions):
        """Whether an edit adds such a sign to one of these functions; to any, if none is given."""
        for (file, number), new in self.changed.items():
            old = self.text(file).split("\n")[number]
            if len(sign.findall(new)) > len(sign.findall(old)):
                if not functions or any(has_line(it, file, number) for it in functions):
                    return True
        return False

    def kind_of_note(self, at, folders, functions=()):
        """How functions fall of whose goal the checker says at this place that it isn't proved,
        with these folders of proofs of their own."""
        said = at[5]
        if IS_FALSE in said:
            return GOAL
        goal = re.search(r"\(`([^`]+)`\)", said)
        answered = [it for at in folders for it in ANSWER.findall(self.text(f"{at}/Answers.antt"))]
        alike = [it for it in answered if not goal or are_alike(goal[1], it)]
        for folder, name, error in self.errors:
            is_lost = LOST.search(error) and "goal" in error.lower()
            if folder in folders and (name == "Invariants.antt" or is_lost):
                lost = [it for it in answered if f"`{it}`" in error or f".{it}`" in error]
                if not lost or set(lost).intersection(alike):
                    return TEXT
        return TEXT if alike and self.adds(EXIT, functions) else GOAL

    def kind_of_error(self, at, functions=()):
        """How functions fall that have this error in a file of their own proof, and the end of an
        answer that it is about, if that has to be looked at again."""
        file, said = at[2], at[5]
        if LOST.search(said):
            return NAME, None
        if self.adds(BRANCH, functions):
            return TEXT, None
        end = self.end_at(file, int(at[3]) - 1, int(at[4]) - 1)
        if end and NO_PROOF.search(said):
            return GOAL, None
        return (OPEN, end) if end and OTHER.search(said) else (TEXT, None)


def has_line(function, file, number):
    """Whether a line of a file is one of the function's."""
    return function.file == file and function.first <= number <= function.last


def folder_of(name):
    """The folder of a function's own proof, by its name in a check."""
    return "proofs/" + "/".join(name.split("::")[1:])


def shown_by(said, line, functions, folders):
    """The function that a line of a check shows to be refused, in a list, how, and what has to be
    looked at again; an empty list where the line shows no such thing, and None where what it
    refuses is of no edited function."""
    at = SAID.match(line)
    if not at:
        return [], NONE, None
    is_note, file, number = at[1], at[2], int(at[3]) - 1
    if is_note:
        if not at[5].startswith("it is not proved that"):
            return [], NONE, None
        own = [it for it in functions if has_line(it, file, number)]
        mine = [folder for folder, its in folders.items() if its == own]
        return own or None, said.kind_of_note(at, mine, own), None
    if not at[5].startswith("error"):
        return [], NONE, None
    folder, name = os.path.split(file)
    kind, end = said.kind_of_error(at, folders.get(folder, ()))
    if kind == NAME and file.startswith("proofs/") and name in OF_A_FUNCTION:
        return [], NONE, None
    return folders.get(folder), kind, end


def found_in(lines):
    """What came of an edit of which lines were found, by how they show it to fall, with what has to
    be looked at again."""
    for kind in (GOAL, OPEN, TEXT, NAME):
        if kind in lines:
            again = tuple(end for _, end in lines[OPEN]) if kind == OPEN else ()
            return Found(kind, lines[kind][0][0][:160], again)
    return None


def results_of(output):
    """What a check says of each function."""
    return dict(re.findall(r"^fn (\S+): (.*)$", output, re.M))


def refused_by(crate, output, edits):
    """What came of the edits that a check of the functions of all of them refused for certain; None
    where it came to no verdict, or refused what is of no edited function."""
    if not re.search(r"^(only=\d+ proved=\d+|logic=not-proved)", output, re.M):
        return None
    results = results_of(output)
    functions = [it for edit in edits for it in edit.changed]
    named = {it: name_of(it, results) for it in functions}
    if None in named.values():
        return None
    folders = {folder_of(named[it]): [it] for it in functions}
    said, shown = Said(crate, edits, output), {}
    for line in said.lines:
        own, kind, end = shown_by(said, line, functions, folders)
        if own is None:
            return None
        for function in own:
            if results[named[function]].startswith(("not proved", "no proof")):
                shown.setdefault((function, kind), []).append((line, end))
    refused = {}
    for edit in edits:
        lines = {}
        for (function, kind), its in shown.items():
            if function in edit.changed:
                lines.setdefault(kind, []).extend(its)
        found = found_in(lines)
        is_waiting = len(edits) > 1 and any(named[it] in said.waits for it in edit.changed)
        if found and not (found.kind == TEXT and is_waiting):
            refused[edit] = found
    return refused


def found_alone(edit, ran):
    """What a check of the whole crate says of the one edit that it was made with."""
    lines = ran.stdout.rstrip("\n").split("\n")
    if ran.returncode == 0:
        return Found(NONE, "NOT REFUSED: the crate is still proved with this edit")
    if ran.returncode != 1 or not lines[-1].startswith("logic=not-proved"):
        return Found(NONE, f"NOT TRIED: the check says: {lines[-1][:160]}")
    said, shown = Said(edit.crate, [edit], ran.stdout), {}
    folders = {folder for folder, _, _ in said.errors}
    for line in said.lines:
        at = SAID.match(line)
        if at and at[1] and at[5].startswith("it is not proved that"):
            shown.setdefault(said.kind_of_note(at, folders), []).append((line, None))
        elif at and not at[1] and at[5].startswith("error"):
            kind, end = said.kind_of_error(at)
            shown.setdefault(kind, []).append((line, end))
    return found_in(shown) or Found(NONE, "NOT REFUSED: the check says nothing of a goal")


def found_again(edit, found, output):
    """What came of an edit once a search had to find what the ends of answers were to prove."""
    is_known = re.search(r"^(only=\d+ proved=\d+|logic=(not-)?proved)", output, re.M)
    results, said = results_of(output), Said(edit.crate, [edit], output)
    names = [name_of(it, results) for it in edit.changed]
    if is_known and names and all(results.get(it) == "proved" for it in names):
        return Found(NONE, f"NOT REFUSED but for the text of a proof: {found.said}")
    folders = [folder_of(it) for it in names if it]
    for at in filter(None, map(SAID.match, said.lines)):
        if not at[1] and NO_PROOF.search(at[5]):
            if any(at[2] == it.file and f"`{it.name}`" in at[5] for it in found.again):
                return Found(GOAL, found.said)
        if at[1] and at[5].startswith("it is not proved that"):
            is_own = any(has_line(it, at[2], int(at[3]) - 1) for it in edit.changed)
            if is_own and said.kind_of_note(at, folders, edit.changed) == GOAL:
                return Found(GOAL, at[0][:160])
    return Found(TEXT, found.said)


class Trial:
    """Tries edits, and tells what came of each."""

    def __init__(self, is_anew, log):
        self.kit = os.path.dirname(run(["rt", "doc"]).stdout.strip())
        self.version = run(["rt", "version"]).stdout.strip()
        self.tree = f"{os.getcwd()}/out/tree" if log else os.getcwd()
        self.log, self.is_anew, self.kept = log, is_anew, "out/edits"
        self.lock, self.found, self.sums, self.room = threading.Lock(), {}, {}, ""
        os.makedirs(self.kept, exist_ok=True)
        self.reasons = dict(
            line.split(": ", 1)
            for line in (read(REASONS).split("\n") if os.path.isfile(REASONS) else [])
            if line.startswith("crates/")
        )
        self.named = {
            name: words.split()
            for name, _, words in (line.partition(":") for line in read("crates.txt").split("\n"))
            if re.match(r"[a-z]", name)
        }

    def sum_of(self, crate):
        """A sum of all that a verdict on a crate rests on."""
        rests_on = hashlib.sha256(repr((self.version, crate.direct)).encode())
        for name in sorted({crate.name, *crate.below}):
            for file in files_of(f"crates/{name}"):
                rests_on.update(file.encode() + read(file).encode())
        return rests_on.hexdigest()

    def place_of(self, edit):
        """The file that keeps what came of an edit."""
        with self.lock:
            if edit.crate.name not in self.sums:
                self.sums[edit.crate.name] = self.sum_of(edit.crate)
        text = self.sums[edit.crate.name] + read(edit.file)
        return f"{self.kept}/{hashlib.sha256(text.encode()).hexdigest()}"

    def tell(self, edit, found):
        """Keeps and prints what came of an edit."""
        if "NOT TRIED" not in found.said:
            with open(self.place_of(edit), "w", encoding="utf-8") as kept:
                kept.write(f"{found.kind} {found.said}")
        with self.lock:
            self.found[edit] = found
            said = found.said if found.kind == NONE else f"{found.kind}: {found.said}"
            print(f"edits: {edit.name}: {said}", flush=True)
            if reason := self.reasons.get(edit.file):
                told = "stands there without need" if found.kind == GOAL else reason
                print(f"edits: {edit.name}: {REASONS}: {told}", flush=True)

    def passes(self, edit):
        """Whether an edit fell by a goal, or stands on the list of others that fall."""
        is_listed = edit.file in self.reasons
        return self.found[edit].kind in ((TEXT, NAME) if is_listed else (GOAL,))

    def earlier(self, edit):
        """What came of an edit earlier, if anything is kept of it."""
        if self.is_anew or not os.path.isfile(self.place_of(edit)):
            return None
        kind, _, said = read(self.place_of(edit)).partition(" ")
        return Found(kind, said) if kind in (GOAL, TEXT, NAME, NONE) else None

    def check(self, crate, edits, only, ends=()):
        """Checks a copy of the crate with these edits, over what its earlier checks proved, with
        searches for these ends of answers."""
        with tempfile.TemporaryDirectory(prefix="edits-") as folder:
            make(crate, folder, edits, ends)
            command = [f"{self.kit}/bin/rattle", "check", *crate.words(self.kit, self.tree)]
            return run([*command, "--incremental", f"{self.room}/{crate.name}", *only], folder)

    def look_again(self, crate, found):
        """Looks again at edits of which it is open what came of them, and tells of all."""
        waiting = [edit for edit in found if found[edit].kind == OPEN]
        if waiting:
            ends = {(it.file, it.tokens[0]): it for edit in waiting for it in found[edit].again}
            only = only_of(waiting)
            output = self.check(crate, waiting, only, ends.values()).stdout
            for edit in waiting:
                found[edit] = found_again(edit, found[edit], output)
        for edit, its in found.items():
            self.tell(edit, its)

    def try_together(self, crate, edits):
        """Tries edits of different functions of a crate, in one check if all goes well."""
        if not edits:
            return
        output = self.check(crate, edits, only_of(edits)).stdout
        refused = refused_by(crate, output, edits) or {}
        left = [edit for edit in edits if edit not in refused]
        self.look_again(crate, refused)
        if refused:
            # Some may have waited for the proof of a function that they call.
            self.try_together(crate, left)
        elif len(left) > 1:
            half = len(left) // 2
            self.try_together(crate, left[:half])
            self.try_together(crate, left[half:])
        else:
            self.try_alone(crate, left[0])

    def try_alone(self, crate, edit):
        """Tries an edit by a check of its whole crate."""
        self.look_again(crate, {edit: found_alone(edit, self.check(crate, [edit], []))})

    def try_crate(self, crate, edits):
        """Tries the edits of a crate."""
        waiting = []
        for edit in edits:
            earlier = self.earlier(edit)
            if not edit.lines:
                self.tell(edit, Found(NONE, "BAD EDIT: it can't be made, or changes nothing"))
            elif earlier:
                self.tell(edit, earlier)
            else:
                waiting.append(edit)
        together = [it for it in waiting if it.changed]
        for batch in batches_of(together) if together else []:
            self.try_together(crate, batch)
        for edit in waiting:
            if not edit.changed:
                self.try_alone(crate, edit)

    def next_of(self, waiting):
        """Takes the first of these crates that has to wait no longer, once there is one, and answers
        with it whether the libraries below it are there; None where no crate is left."""
        while waiting:
            with self.lock:
                said = read(self.log) if self.log else ""
                proved, has_ended = set(PROVED.findall(said)), bool(ENDED.search(said))
                for crate in waiting:
                    is_there = not self.log or proved.issuperset(crate.below)
                    if is_there or has_ended:
                        waiting.remove(crate)
                        return crate, is_there
            time.sleep(2)
        return None

    def try_each(self, waiting, edits):
        """Tries the edits of these crates, one crate after another, until none is left."""
        while found := self.next_of(waiting):
            crate, is_there = found
            if is_there:
                self.try_crate(crate, edits[crate])
                continue
            for edit in edits[crate]:
                self.tell(edit, Found(NONE, "NOT TRIED: a library isn't proved"))

    def try_all(self, folder, names):
        """Tries the edits of these crates, and answers whether each was refused."""
        crates = [Crate(name, self.named) for name in names]
        edits = {
            crate: [Edit(crate, it) for it in sorted(glob.glob(f"{crate.folder}/{folder}/*.edit"))]
            for crate in crates
        }
        # The longest ones first.
        crates.sort(key=lambda it: -sum(map(os.path.getsize, files_of(it.folder))))
        jobs = int(os.environ.get("RT_JOBS") or len(os.sched_getaffinity(0)))
        with tempfile.TemporaryDirectory(prefix="edits-") as self.room:
            for crate in crates:
                os.mkdir(f"{self.room}/{crate.name}")
            with concurrent.futures.ThreadPoolExecutor(jobs) as pool:
                for done in [pool.submit(self.try_each, crates, edits) for _ in range(jobs)]:
                    done.result()
        lacking = [
            it
            for it in self.reasons
            if it.split("/")[1] in names and it.split("/")[2] == folder and not os.path.isfile(it)
        ]
        for file in lacking:
            print(f"edits: {REASONS}: there is no {file}")
        kinds = collections.Counter(it.kind for it in self.found.values())
        print(
            f"edits: {kinds[GOAL]} fell by a goal, {kinds[TEXT]} by the text of a proof, "
            f"{kinds[NAME]} by a name, and {kinds[NONE]} not at all"
        )
        passed = sum(map(self.passes, self.found))
        failed = len(self.found) - passed + len(lacking)
        print(f"{passed} passed, {failed} failed")
        return passed > 0 and failed == 0


# The commands that run now.
RUNNING = set()


def run(words, folder=None):
    """Runs a command to its end."""
    with subprocess.Popen(
        words,
        cwd=folder,
        stdin=subprocess.DEVNULL,
        stdout=subprocess.PIPE,
        stderr=subprocess.STDOUT,
        text=True,
        errors="replace",
    ) as running:
        RUNNING.add(running)
        said = running.communicate()[0]
        RUNNING.remove(running)
    return subprocess.CompletedProcess(words, running.returncode, said)


def stop(*_):
    """Ends this, and what it runs."""
    for running in list(RUNNING):
        running.kill()
    os._exit(143)


def main(words):
    parser = argparse.ArgumentParser(prog="edits.py", description="Tries edits.")
    parser.add_argument("folder", metavar="FOLDER")
    parser.add_argument("names", metavar="CRATE", nargs="*")
    parser.add_argument("--anew", action="store_true")
    parser.add_argument("--beside", metavar="LOG")
    options = parser.parse_args(words)
    found = sorted({it.split("/")[1] for it in glob.glob(f"crates/*/{options.folder}/*.edit")})
    lacking = [it for it in options.names if it not in found]
    if lacking:
        print(f"edits: there is no folder crates/{lacking[0]}/{options.folder}", file=sys.stderr)
        return 2
    signal.signal(signal.SIGTERM, stop)
    trial = Trial(options.anew, options.beside)
    return 0 if trial.try_all(options.folder, options.names or found) else 1


if __name__ == "__main__":
    sys.exit(main(sys.argv[1:]))
