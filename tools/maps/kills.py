"""Kills the program while it changes maps in a file, and judges what it left.

That is the maps behind a prefix of the changes of the script, which holds all that a reply to a flush has confirmed and no part of a batch that
is sealed.
"""

import copy
import os
import time

from lists import Lists, script_of
from model import MOST_PAIRS, Maps
from runs import Judge, Wrong
from words import bytes_of

# Seconds from the start of the program to the latest kill, and lines that are fed at once.
_LATEST = 0.12
_LINES = 16
# scripts over one file before a new one is begun
_ROUNDS = 30
_COMMANDS = 400


class Kills:
    """A file that is changed by one killed run after the other, with what it holds."""

    def __init__(self, program, random):
        self.program = program
        self.random = random
        self.rounds = 0
        self.held, self.last_id = {}, -1

    def round(self):
        """One script, a kill, and a judgement of the replies and the file."""
        if self.rounds % _ROUNDS == 0:
            self._begin()
        self.rounds += 1
        lines = Lists(self.random).lines(_COMMANDS)
        replies = self._killed(lines)
        found = self._found()
        self._judge(lines, replies, found)
        self.held = found

    def _begin(self):
        if os.path.exists(self.program.file("log")):
            os.remove(self.program.file("log"))
        self.held, self.last_id = {}, -1

    # ---- a kill

    def _killed(self, lines):
        """The replies that came before the kill."""
        end = time.monotonic() + self.random.random() * _LATEST
        replies, faults = self.program.file("replies"), self.program.file("faults")
        with open(replies, "wb") as into, open(faults, "wb") as reported:
            run = self.program.start("log", into, reported)
            try:
                self._feed(run, lines, end)
                time.sleep(max(0, end - time.monotonic()))
            finally:
                run.kill()
                run.wait()
        with open(replies, "rb") as came, open(faults, "rb") as reported:
            text, fault = came.read().decode("latin-1"), reported.read()
        if fault:
            raise Wrong(f"the program reported {fault!r}")
        # what ends in no newline is no reply yet
        return text.split("\n")[:-1]

    def _feed(self, run, lines, end):
        for place in range(0, len(lines), _LINES):
            if time.monotonic() >= end:
                return
            run.stdin.write(script_of(lines[place : place + _LINES]))
            run.stdin.flush()
            time.sleep(0.002)

    # ---- what is found then

    def _found(self):
        """The maps that the file holds."""
        reply = self.program.run(b"maps\n", "log")[0].split(" ")
        found = {bytes_of(word): {} for word in reply[2:]}
        places = {name: b"" for name in found}
        while places:
            scans = [("scan", name, start, MOST_PAIRS) for name, start in places.items()]
            replies = self.program.run(script_of(scans), "log")
            for (_, name, _, _), reply in zip(scans, replies):
                words = [bytes_of(word) for word in reply.split(" ")[2:]]
                found[name].update(zip(words[::2], words[1::2]))
                if len(words) == 2 * MOST_PAIRS:
                    places[name] = words[-2] + b"\0"
                else:
                    del places[name]
        return found

    # ---- the judgement

    def _judge(self, lines, replies, found):
        if len(replies) > len(lines):
            raise Wrong(f"{len(lines)} lines are replied to by {len(replies)}")
        judge = Judge(Maps())
        judge.maps.maps, judge.last_id = copy.deepcopy(self.held), self.last_id
        durable, sealed = confirmed(lines, replies), inside_batches(lines)
        is_found, wrong = False, "the file holds no prefix of the script"
        for place, line in enumerate(lines):
            for state in states_before(judge.maps, line):
                if is_found or state != found:
                    continue
                if place < durable:
                    wrong = f"what line {durable} made durable is lost, behind line {place}"
                elif place in sealed:
                    wrong = f"a part of a batch is there, up to line {place}"
                else:
                    is_found = True
            if place < len(replies):
                judge.replied(line, replies[place])
            else:
                judge.maps.reply(line)
        if not is_found and judge.maps.maps != found:
            raise Wrong(wrong)
        self.last_id = judge.last_id


def states_before(maps, line):
    """The maps before a line, and between its two changes where it makes a map first."""
    yield maps.maps
    if maps.makes(line):
        yield {**maps.maps, line[1]: {}}


def confirmed(lines, replies):
    """How many lines a reply to a flush has made durable."""
    flushes = [place for place, reply in enumerate(replies) if lines[place][0] == "flush" and reply.startswith("flushed")]
    return flushes[-1] + 1 if flushes else 0


def inside_batches(lines):
    """The places of lines that stand in a batch which is sealed, behind its first change: what a crash left of it may not end there."""
    inside, start = set(), None
    for place, line in enumerate(lines):
        if line[0] == "pin" and start is None:
            start = place
        elif line[0] in ("seal", "cancel") and start is not None:
            if line[0] == "seal":
                inside.update(range(start + 2, place + 1))
            start = None
    return inside
