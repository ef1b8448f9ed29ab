"""Scripts that are drawn, and what the program says of them, for stress/many-schedules and
stress/many-replays."""

import os
import random
import re
import subprocess
import tempfile

import checks

# Lines by which all is delivered, whatever the threads do: each of them delivers what was ready on
# each processor when it began, and no message comes of more than 28 others, one after another.
SETTLE = ["drain 200"] * 30

# The kinds of arrays 0 to 3: counters, a ring, accounts, and sums.
KINDS = (1, 2, 3, 4)


class Script:
    """A script: what it does, and the lines that look at it in the end."""

    def __init__(self, seed):
        self.draw = random.Random(seed)
        self.processors = self.draw.randint(1, 8)
        self.size = self.draw.randint(1, 12)
        self.moves = 0
        self.asked = {}
        self.body = self.steps()

    def ask(self, array, index, entry, *words):
        """A request of a client that has asked for fewer than eight."""
        client = self.draw.randint(1, 30)
        while self.asked.get(client, 0) == 8:
            client += 1
        number = self.asked[client] = self.asked.get(client, 0) + 1
        return f"req {client} {number} {array} {index} {entry} {' '.join(map(str, words))}"

    def made(self):
        """Lines that construct the elements: a sum takes a value of each element below it."""
        last = self.size - 1
        for index in range(self.size):
            yield self.ask(0, index, 65535, 0)
            yield self.ask(1, index, 65535, (index + 1) % self.size)
            yield self.ask(2, index, 65535, 1_000_000)
            yield self.ask(3, index, 65535, 1 + (index > 0), min(index + 1, last))

    def used(self):
        """Lines whose outcome is the same in any order."""
        for _ in range(self.draw.randint(0, 60)):
            array, index = self.draw.randrange(3), self.draw.randrange(self.size)
            words = [self.draw.randrange(self.size)] if array == 2 else []
            yield self.ask(array, index, 0, *words, self.draw.randint(0, 12))
        for index in range(self.size):
            yield self.ask(3, index, 0, self.draw.randint(0, 99))

    def steps(self):
        """All lines that do something, with deliveries, moves, flushes and images among them."""
        lines = [*self.made(), *self.used()]
        if self.draw.randrange(2):
            # Messages wait for elements that aren't there yet.
            self.draw.shuffle(lines)
            lines = sorted(lines, key=lambda it: tuple(map(int, it.split()[1:3])))
        done = []
        for line in lines:
            done.append(line)
            if not self.draw.randrange(6):
                few = f"drain {self.draw.randint(1, 9)}"
                done.append(self.draw.choice(("flush", "checkpoint", few, "drain 100")))
            if not self.draw.randrange(40):
                done += [*SETTLE, self.move()]
        return done

    def move(self):
        """A move, which takes a blank. The same elements are there by then in any order."""
        self.moves += 1
        array, index = self.draw.randrange(4), self.draw.randrange(self.size)
        return f"move {array} {index} {self.draw.randrange(self.processors)}"

    def looks(self):
        """The lines that look at all in the end."""
        yield from (*SETTLE, "flush", "pending", "census")
        for client, many in sorted(self.asked.items()):
            yield from (f"status {client} {number}" for number in range(1, many + 1))
        for array in range(4):
            yield from (f"state {array} {index}" for index in range(self.size))

    def text(self):
        """The whole script of a run."""
        head = [f"pes {self.processors}"]
        head += [f"array {array} {kind}" for array, kind in enumerate(KINDS)]
        head += [f"supply {kind} {self.size + self.moves}" for kind in KINDS]
        return "\n".join([*head, *self.body, *self.looks(), ""])


def said(words, is_on_one):
    """The lines that the program prints, but for the words of replies, which the order decides."""
    on_one = ["taskset", "-c", str(min(os.sched_getaffinity(0)))] if is_on_one else []
    ran = subprocess.run(
        [*on_one, checks.program(), *words],
        stdin=subprocess.DEVNULL,
        capture_output=True,
        text=True,
        timeout=120,
        check=False,
    )
    if ran.returncode:
        return [f"status {ran.returncode}", ran.stderr, *ran.stdout.split("\n")[-3:]]
    return re.sub(r"^told replied .*", "told replied", ran.stdout, flags=re.M).split("\n")


def ended_well(words, is_on_one):
    """The same of a program that has to end with 0."""
    lines = said(words, is_on_one)
    checks.hold(not lines[0].startswith("status "), f"'{words[0]}' doesn't end well: {lines}")
    return lines


def looked(script, lines):
    """What is printed in the end, after the last flush: of each thing that the script looks at
    there. All is delivered, each request has its reply, and each element is there."""
    flushes = [at for at, line in enumerate(lines) if line.startswith("flushed")]
    found = lines[flushes[-1] + 1 :] if flushes else []
    wanted = ["pending 0", *(f"census {kind} supplied " for kind in KINDS)]
    for words in (line.split() for line in script.looks()):
        if words[0] == "status":
            wanted.append("told replied")
        if words[0] == "state":
            wanted.append(f"state {words[1]}.{words[2]} pe ")
    checks.hold(len(found) == len(wanted) + 1, f"{len(found)} lines in the end: {lines[-3:]}")
    for begin, line in zip(wanted, found):
        checks.hold(line.startswith(begin), f"'{line}' in place of '{begin}'")
    return found


def placeless(lines):
    """The lines without the places of elements and without the census."""
    return [re.sub(r" pe \d+ ", " ", it) for it in lines if not it.startswith("census")]


def differing(wanted, found):
    """The first lines that differ, if any do."""
    if wanted == found:
        return None
    pairs = [it for it in zip(wanted, found) if it[0] != it[1]]
    return pairs[:2] or [(len(wanted), len(found))]


def are_numbers(words):
    """What is wrong with words that have to be how many there are and a number that draws them."""
    if len(words) <= 2 and all(re.fullmatch(r"[1-9][0-9]{0,8}", it) for it in words):
        return None
    return "it takes how many there are, and a number that draws them"


def try_many(words, usual, what, agree):
    """Tries as many as the first word says, or as is usual, drawn by the second one, or by 1: calls
    `agree` with the number of each, with what draws it, and with a folder. It answers where two
    don't agree. Answers how many passed and failed."""
    many, seed = (*map(int, words), *(usual, 1)[len(words) :])
    checks.program()
    checks.need("taskset", "no run can be put on one processor without it")
    count = checks.Count()
    for number in range(many):
        with tempfile.TemporaryDirectory(prefix=f"{checks.SCRIPT}-") as work:
            try:
                found = agree(number, seed * 1_000_000 + number, work)
            except checks.FAILURES as wrong:
                found = wrong
        if found is None:
            count.passed += 1
        else:
            count.fails(f"{what} {number} of {seed}: {found}")
    return count
