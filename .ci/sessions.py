"""What `.ci/powercut` and `.ci/faults` share: they run the program `slog_file` line by line, keep what it was told and what it
acknowledged, and hold against that what a later opening finds.
"""
import dataclasses
import os
import re
import shutil
import subprocess
import sys
import threading

ROOT = os.path.realpath(os.path.join(os.path.dirname(__file__), ".."))
BUILT = f"{ROOT}/crates/slog_file/out/slog_file"
# How many seconds a run of the program, or a call of apt-get, may take.
LIMIT = 300


class Lost(Exception):
    """Something that was acknowledged is lost, or an answer is wrong."""


def program():
    """The program, which is built if it isn't there."""
    path = os.environ.get("SLOG_FILE", BUILT)
    if not os.path.exists(path) and os.path.realpath(path) != os.path.realpath(BUILT):
        sys.exit(f"SLOG_FILE names {path}, which isn't there")
    if not os.path.exists(path):
        subprocess.run(["rt", "run", "--", "--help"], cwd=f"{ROOT}/crates/slog_file", stdout=subprocess.DEVNULL, check=True)
    return os.path.realpath(path)


def strace():
    """The path of strace, which apt-get installs if it is missing, or None if that fails."""
    if not shutil.which("strace"):
        for words in (["apt-get", "-qq", "update"], ["apt-get", "-qq", "install", "-y", "strace"]):
            how = {"env": {**os.environ, "DEBIAN_FRONTEND": "noninteractive"}, "stdin": subprocess.DEVNULL, "capture_output": True}
            try:
                subprocess.run(words, timeout=LIMIT, check=True, **how)
            except (OSError, subprocess.SubprocessError) as error:
                print(f"strace isn't on this machine, and `{' '.join(words)}` fails: {error}")
                return None
    return shutil.which("strace")


def room():
    """The folder for temporary files: the one in memory, if the machine has it."""
    return "/dev/shm" if os.access("/dev/shm", os.W_OK) else None


@dataclasses.dataclass(frozen=True)
class Message:
    """A message by its place. Its item is kept as the program prints it, and of a batch the place of the manifest."""

    place: int
    what: str
    page: int | None
    item: str | None
    batch: int | None
    is_done: bool = False


@dataclasses.dataclass(frozen=True)
class History:
    """The pages below the cut that the last opening told, the messages since, by place, the batches that were ended, and the greatest
    place that was acknowledged."""

    pages: dict = dataclasses.field(default_factory=dict)
    cut: int = 0
    messages: dict = dataclasses.field(default_factory=dict)
    ended: frozenset = frozenset()
    acknowledged: int = -1

    def but(self, **new):
        return dataclasses.replace(self, **new)

    def told(self, message):
        return self.but(messages={**self.messages, message.place: message})

    def pages_below(self, cut):
        """The pages that the completed messages below a place make."""
        pages = dict(self.pages)
        for place in sorted(self.messages):
            message = self.messages[place]
            if place >= cut or not message.is_done:
                continue
            if message.what == "replace":
                pages[message.page] = [message.item]
            elif message.what == "link":
                pages[message.page] = [*(pages.get(message.page) or ()), message.item]
            elif message.what == "free":
                pages[message.page] = None
        return pages

    def found(self, cut, pages):
        """Holds against it what an opening found. Returns the history that goes on from there."""
        if cut < self.cut:
            raise Lost(f"the cut is {cut}, and an opening told {self.cut} before")
        if cut <= self.acknowledged:
            raise Lost(f"the cut is {cut}, and place {self.acknowledged} was acknowledged")
        for batch in {message.batch for message in self.messages.values()} - {None}:
            places = [place for place, message in self.messages.items() if message.batch == batch]
            if min(places) < cut and (batch not in self.ended or max(places) >= cut):
                raise Lost(f"the batch of places {places} is there in part, or before its end: the cut is {cut}")
        wanted = self.pages_below(cut)
        if pages != wanted:
            wrong = [page for page in sorted({*pages, *wanted}) if pages.get(page, 0) != wanted.get(page, 0)]
            told = "; ".join(f"page {page} is {pages.get(page, 'missing')}, not {wanted.get(page, 'missing')}" for page in wrong)
            raise Lost(f"below the cut {cut} {told}")
        return History(pages, cut, acknowledged=self.acknowledged)


class Session:
    """The program over a folder. Each line is answered before the next one is sent."""

    def __init__(self, words, history, size=256):
        pipe = subprocess.PIPE
        self.child = subprocess.Popen(words, stdin=pipe, stdout=pipe, stderr=pipe, text=True, errors="replace")
        self.watch = threading.Timer(LIMIT, self.child.kill)
        self.watch.daemon = True
        self.watch.start()
        self.history, self.lines, self.answers = history, [], []
        # While the line of a number runs, what it adds may be there, but what it acknowledges needn't.
        self.while_running = []
        self.tickets, self.batch, self.forgotten, self.ended = [], None, [], None
        # how many bytes the first opening told that it drops
        self.dropped = 0
        self.send(f"size {size}")

    def send(self, line):
        try:
            self.child.stdin.write(line + "\n")
            self.child.stdin.flush()
        except BrokenPipeError:
            pass

    def ask(self, line):
        """Sends a line, and notes what its answer says. Returns the answer's words."""
        self.lines.append(line)
        self.send(line)
        answer = self.child.stdout.readline().rstrip("\n")
        if not answer:
            raise Lost(f"'{line}' isn't answered; the program ends so: {self.end()}")
        self.answers.append(answer)
        before = self.history
        self.note(line.split(" "), answer.split(" "))
        self.while_running.append(self.history.but(acknowledged=before.acknowledged))
        return answer.split(" ")

    def note(self, line, answer):
        word, kind, history = line[0], answer[0], self.history
        if kind == "bad" or kind == "error" and answer[1] not in ("held", "not-reserved"):
            raise Lost(f"'{' '.join(line)}' answers '{' '.join(answer)}'")
        if kind == "reserved":
            place = int(answer[2])
            self.batch = place if word == "begin" else self.batch
            self.tickets += [answer[1]] if word != "begin" else []
            page = int(line[1]) if len(line) > 1 else None
            item = f"{len(line[2]) // 2:02x}{line[2]}" if len(line) > 2 else None
            self.history = history.told(Message(place, word, page, item, self.batch))
        elif kind == "done":
            place = int(answer[1])
            if word == "abort":
                self.history = history.but(messages={at: it for at, it in history.messages.items() if at != place})
            else:
                self.history = history.told(dataclasses.replace(history.messages[place], is_done=True))
            if word == "end":
                self.history, self.batch = self.history.but(ended=history.ended | {place}), None
            else:
                self.tickets.remove(line[1])
        elif kind == "flushed":
            most = int(line[1]) if word == "stable" else 2**63
            done = [place for place, message in history.messages.items() if message.is_done and place <= most]
            self.history = history.but(acknowledged=max([history.acknowledged, *done]))
        elif kind == "halted":
            self.tickets, self.batch = [], None

    def open(self):
        """Opens the log, reads each page, and holds all that against the history. Returns the cut as it is told."""
        told = self.ask("open")
        if told[0] != "opened":
            raise Lost(f"'open' answers '{' '.join(told)}'")
        begun, cut, pages = len(self.lines), 0 if told[1] == "-" else int(told[1]), {}
        for page in range(int(told[3])):
            items = self.ask(f"read {page}")
            if items[0] != "page":
                raise Lost(f"'read {page}' answers '{' '.join(items)}'")
            pages[page] = None if items[1] == "free" else items[1:]
        self.forgotten = [self.history.messages[place] for place in sorted(self.history.messages) if place >= cut]
        self.history = self.history.found(cut, pages)
        self.while_running[begun:] = [self.history] * int(told[3])
        return told[1]

    def end(self):
        """Ends the lines. Returns the status, and what was printed that nothing asked for, but for how far an opening is and what it drops."""
        if self.ended is None:
            try:
                self.child.stdin.close()
            except BrokenPipeError:
                pass
            said = self.child.stdout.read() + self.child.stderr.read()
            status = self.child.wait()
            self.watch.cancel()
            self.child.stdout.close()
            self.child.stderr.close()
            said = "".join(line for line in said.splitlines(True) if not line.endswith(("bytes are read\n", "are being read\n")))
            if found := re.search("^slog_file: .*/log: ([0-9]+) (byte that isn't zero is|bytes that aren't zeros are) dropped\n", said, re.M):
                self.dropped, said = int(found[1]), said.replace(found[0], "")
            self.ended = status, said
        return self.ended

    def end_well(self):
        status, said = self.end()
        if status or said:
            raise Lost(f"the program ends with status {status}, and says '{said.strip()}'")


@dataclasses.dataclass(frozen=True)
class Habits:
    """What lines a session is given: how many pages there are, how often a message is a link, a free or a rewrite, how often it is a
    batch instead, how often a halt and an opening follow it, and which lengths items have."""

    pages: int
    link: float
    free: float
    rewrite: float
    batch: float
    halt: float
    lengths: tuple


def item_of(rng, lengths):
    return rng.randbytes(rng.choice(lengths)).hex()


def give_message(session, rng, habits, open_share=0.0):
    """Gives a message, which is completed, mostly; it is given up or left open else."""
    draw, page, item = rng.random(), rng.randrange(habits.pages), item_of(rng, habits.lengths)
    if draw < habits.link:
        answer = session.ask(f"link {page} {item}")
    elif draw < habits.link + habits.free:
        answer = session.ask(f"free {page}")
    elif draw < habits.link + habits.free + habits.rewrite:
        answer = session.ask(f"rewrite {page}")
    else:
        answer = session.ask(f"replace {page} {item}")
    if answer == ["refused", "page"]:
        answer = session.ask(f"replace {len(session.history.pages_below(2**63))} {item}")
    if answer[0] == "reserved" and rng.random() >= open_share:
        session.ask(f"{'abort' if rng.random() < 0.07 else 'complete'} {answer[1]}")


def give_lines(session, rng, habits, count):
    """Gives an open log so many messages or batches, and what comes between them."""
    for _ in range(count):
        if rng.random() < habits.batch:
            session.ask("begin")
            for _ in range(rng.randrange(4)):
                give_message(session, rng, habits)
            session.ask("end")
        else:
            give_message(session, rng, habits, open_share=0.05)
        draw = rng.random()
        if draw < 0.25:
            give_flush(session, rng)
        elif draw < 0.4 and session.history.messages:
            session.ask(f"stable {rng.choice(sorted(session.history.messages)[-5:])}")
        elif draw < 0.5:
            session.ask(rng.choice(["write 0", f"read {rng.randrange(habits.pages)}"]))
        if rng.random() < habits.halt:
            if rng.random() < 0.5:
                give_flush(session, rng)
            session.ask("halt")
            session.open()


def give_flush(session, rng):
    """Ends the open messages, and flushes."""
    for ticket in list(session.tickets):
        session.ask(f"{rng.choice(['complete', 'complete', 'abort'])} {ticket}")
    session.ask("flush")


def give_again(session, rng, habits, count):
    """Gives an opened log lines. If it forgot messages, the first ones have the same lengths as some of those, so that what the files may
    still have of the others follows them."""
    forgotten = session.forgotten
    for message in forgotten[: rng.randrange(1, max(2, len(forgotten)))]:
        if message.item is None:
            break
        page, item = min(message.page, len(session.history.pages)), item_of(rng, [len(message.item) // 2 - 1])
        answer = session.ask(f"replace {page} {item}")
        if answer[0] == "reserved":
            session.ask(f"complete {answer[1]}")
    if forgotten:
        give_flush(session, rng)
    give_lines(session, rng, habits, count)
