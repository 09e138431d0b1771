#!/usr/bin/env python3
"""Each allocation is refused in turn, until a run takes none that is: at the program `refused_allocations`, whose calls no
lines make, and at the lines of `rtplines`, which are sent one by one and sent again where memory was refused.

What must come: each answer of ample memory, in its order, and no other in place of `Memory`. What is asked again gives
the answer of ample memory; only a stream that was sending sends no more, while the others of its end do. A poll that
answers None and a `withdraw` are never refused. Not each refusal is seen: a list that grows by a guess asks for less
where that is refused. Run it behind `rt ci`; it needs a C compiler.
"""

import os
import shutil
import subprocess
import tempfile
from pathlib import Path

import built
from built import Counts

HERE = Path(__file__).resolve().parent
MOST = 5000  # more allocations than any run here takes
MARK = "?"  # a line that isn't understood: its answer ends the replies to the line before
MARK_REPLY = "error line"
REFUSALS = ("refused Memory", "fault Memory")

OPUS = "opus 48000 2 minptime=10;useinbandfec=1"
H264 = "H264 90000 - level-asymmetry-allowed=1;packetization-mode=1;profile-level-id=42e01f"


def both(*rows):
    """Lines that make both ends of the same rows."""
    return [line for end, number in (("a", 1), ("b", 2))
            for line in [*[f"row {end} {row}" for row in rows], f"end {end} {number}"]]


def agreed(kind, pt):
    """Ends that agree on a section of this kind and one of audio, and a stream of each from a to b."""
    return [f"connect 0:{kind}:sendrecv:44 1:audio:sendrecv:46 / 0:{kind}:sendrecv:45 1:audio:sendrecv:47",
            f"open b 0 44 {pt} 127", "send a 1 46 111 0 1200 1400 - -", "open b 1 46 111 127"]


# The last sample of each is sent by a second stream of the end. `{n}` stands for the n-th text or datagram that was
# printed, counted from 0.
SESSIONS = {
    "row 21": ["fixed a", "fixed b", "send a 0 44 111 0 1200 1400 - -", "open b 0 44 111 127",
               "sample a 0 960 010203", "receive b {0}", "poll b 0", "poll b 0"],
    "row 25, offer, answer and accept": [
        *both("96 - - VP8 90000 - -", f"111 - - {OPUS}"), "offer a 0:video:sendrecv:44 1:audio:sendrecv:46",
        "answer b {0} 0:video:sendrecv:45 1:audio:sendrecv:47", "accept a {1}", "send a 0 44 96 0 1200 1400 - -",
        "open b 0 44 96 127", "send a 1 46 111 0 1200 1400 - -", "open b 1 46 111 127", "withdraw a"],
    "row 25, connect": [*both("96 - - VP8 90000 - -", f"111 - - {OPUS}"), *agreed("video", 96)],
    "row 23, with header extensions": [
        f"row a 111 - - {OPUS}", "ext a 4 urn:ietf:params:rtp-hdrext:sdes:mid", "end a 1", f"row b 111 - - {OPUS}",
        "ext b 9 urn:ietf:params:rtp-hdrext:sdes:mid", "end b 2", "connect 0:audio:sendrecv:44 / 0:audio:sendrecv:45",
        "send a 0 44 111 0 1200 1400 - -", "open b 0 44 111 127", "sample a 0 960 010203 mid=0", "receive b {2}",
        "poll b 0"],
    "row 4": [*both(f"102 - - {H264}", f"111 - - {OPUS}"), *agreed("video", 102),
              "send a 0 44 102 1000 1500 1600 - -", "sample a 1 0 070001", "sample a 1 0 080203",
              "sample a 1 6000 050405", "sample a 0 960 010203", "receive b {2}", "poll b 0", "receive b {3}",
              "poll b 0", "receive b {4}", "poll b 1", "poll b 1"],
    "row 7": [*both(f"111 - 63 {OPUS}"), "connect 0:audio:sendrecv:44,46 / 0:audio:sendrecv:45",
              "send a 0 44 111 0 1200 1400 1 -", "send a 0 46 111 0 1200 1400 - -", "open b 0 44 111 127",
              "sample a 0 1000 010203", "sample a 0 1960 0405", "sample a 1 960 010203", "receive b {2}",
              "receive b {3}", "poll b 0", "poll b 0", "poll b 0"],
    "row 10": [*both("45 - - AV1 90000 - -", f"111 - - {OPUS}"), *agreed("video", 45),
               "send a 0 44 45 0 3 1600 - -", "sample a 1 3000 12003203aabbcc", "sample a 0 960 010203",
               "receive b {3}", "poll b 0", "receive b {2}", "poll b 0", "poll b 0"],
    "row 14": ["fixed b", "open b 0 44 111 127", "receive b 000102", "receive b 80700000000000000000002c05",
               "receive b a06f0000000000000000002c0102", "poll b 0", "receive b 806f0000000000000000002c05",
               "receive b 806f0000000000000000002c05", "poll b 0", "poll b 0"],
    "packets sent on": [
        *both("96 97 - VP8 90000 - -"), "connect 0:video:sendrecv:44+45 / 0:video:sendrecv:46", "open a 0 46 96 127",
        "send a 0 44 96 0 1200 1400 - -", "send b 0 46 96 0 3 1400 - -", "open b 0 44 96 127", "forwarder 100",
        "switch 0 0 0 0 90000", "sample b 0 0 100200", "forward a 1 0 {2}", "forward a 1 0 {3}", "ends 0 2",
        "reserve 0 1", "leave 0 2", "receive b {4}", "receive b {5}", "poll b 1"],
    "row 28": ["fixed a", "fixed b", "send a 0 44 111 0 1200 1400 - -", "open b 0 44 111 127", "queue 960 0a",
               "queue 1920 0b", "queue 2880 0c", "play 0 0 a0 p a2 p a1 p p p"],
}


class Ended(Exception):
    """The program ended."""


class Session:
    """A run of the program to which lines are sent one by one."""

    def __init__(self, program, preload, nth):
        self.told, told = os.pipe()
        variables = {**os.environ, "LD_PRELOAD": str(preload), "FAIL_NTH": str(nth), "FAIL_TOLD": str(told)}
        self.ran = subprocess.Popen([program], stdin=subprocess.PIPE, stdout=subprocess.PIPE, stderr=subprocess.PIPE,
                                    env=variables, pass_fds=[told])
        os.close(told)

    def ask(self, line):
        """The replies to a line. `Ended` with what came of them, where the program ended before their end."""
        replies = []
        try:
            self.ran.stdin.write(f"{line}\n{MARK}\n".encode())
            self.ran.stdin.flush()
        except BrokenPipeError:
            pass
        for reply in self.ran.stdout:
            text = reply.decode()
            if text == f"{MARK_REPLY}\n":
                return replies
            replies.append(text.rstrip("\n"))
        raise Ended(replies)

    def close(self):
        """How the program ended, what it said, and whether the call that is to fail came."""
        try:
            self.ran.stdin.close()
        except BrokenPipeError:
            pass
        self.ran.stdout.close()
        said = self.ran.stderr.read().decode()
        self.ran.stderr.close()
        status = self.ran.wait(timeout=60)
        failed = os.read(self.told, 1) == b"x"
        os.close(self.told)
        return status, said.strip(), failed


def ample(program, preload, lines):
    """The lines with their texts and datagrams put in, each with its replies where memory is ample."""
    session, printed, out = Session(program, preload, 0), [], []
    for line in lines:
        line = line.format(*printed)
        replies = session.ask(line)
        printed += [reply.split(" ")[1] for reply in replies if reply.startswith(("text ", "datagram "))]
        out.append((line, replies))
    session.close()
    return out


def draft_before(lines, at):
    """The lines of the draft that an `end` empties, refused or not."""
    end, draft = lines[at][0].split(" ")[1], []
    for line, _ in lines[:at]:
        words = line.split(" ")
        if words[1] == end and words[0] in ("row", "ext"):
            draft.append(line)
        elif words[1] == end and words[0] == "end":
            draft = []
    return draft


class Tries:
    """A session with one refusal, line by line beside the run of ample memory."""

    def __init__(self, session, lines):
        self.session, self.lines, self.wrong = session, lines, []
        self.failed, self.refusals, self.cut = set(), 0, False

    def run(self):
        try:
            for at, (line, wanted) in enumerate(self.lines):
                if self.cut:
                    return
                self.step(at, line, wanted)
        except Ended as ended:
            self.cut = True
            part = ended.args[0]
            # the run of the program itself wanted memory: what it wrote is a front of the replies
            if part and not self.is_front(part, at):
                self.wrong.append((line, part))

    def is_front(self, part, at):
        """Whether replies are the first of those that were to come, of ample memory or after a refusal."""
        line, wanted = self.lines[at]
        return part == wanted[: len(part)] or part[0] in REFUSALS or self.sends(line) in self.failed

    @staticmethod
    def sends(line):
        """The end and the stream of a `sample`."""
        words = line.split(" ")
        return (words[1], words[2]) if words[0] == "sample" else None

    def step(self, at, line, wanted):
        replies = self.session.ask(line)
        if self.sends(line) in self.failed:
            self.expect(line, ["refused StreamFailed"], replies)
        elif len(replies) == 1 and replies[0] in REFUSALS:
            self.refused(at, line, wanted)
        else:
            self.expect(line, wanted, replies)

    def expect(self, line, wanted, found):
        if wanted != found:
            self.wrong.append((line, wanted, found))

    def refused(self, at, line, wanted):
        """What a refusal leaves: the line is sent again."""
        self.refusals += 1
        if wanted == ["none"] or line.startswith("withdraw"):
            self.wrong.append((line, "takes no memory, and was refused"))
        words = line.split(" ")
        if words[0] == "sample":
            self.failed.add(self.sends(line))
            self.expect(line, ["refused StreamFailed"], self.session.ask(line))
            return
        if words[0] == "forward":
            # the packet's number is taken, and the packet lost
            self.expect(line, ["refused"], self.session.ask(line))
            return
        if words[0] == "play":
            # a part may be done, and the kept samples are given up
            self.cut = True
            return
        if words[0] == "end":
            for drafted in draft_before(self.lines, at):
                self.expect(drafted, ["ok"], self.session.ask(drafted))
        if words[0] == "connect":
            self.session.ask("withdraw a")
        self.expect(line, wanted, self.session.ask(line))


def tried_lines(counts, build, program, preload, name, lines):
    """A session with each allocation refused in turn."""
    known = ample(program, preload, lines)
    first = [reply for _, replies in known for reply in replies]
    counts.check(f"{name} is answered, {build}", MARK_REPLY not in first and not set(first) & set(REFUSALS),
                 built.shortened(first))
    refusals, faults, wrong = 0, 0, []
    for nth in range(1, MOST):
        tries = Tries(Session(program, preload, nth), known)
        tries.run()
        status, said, failed = tries.session.close()
        refusals += tries.refusals
        faults += said == "memory fault"
        if (status, said) not in ((2, ""), (1, "memory fault")) or tries.refusals > 1:
            wrong.append((nth, status, said, tries.refusals))
        wrong += [(nth, *what) for what in tries.wrong]
        if not failed:
            break
    counts.check(f"{name}, each of {nth - 1} allocations refused, {build}", not failed and not wrong and nth > 5,
                 f"{len(wrong)} otherwise, first {built.shortened(wrong[:2])}")
    counts.check(f"{name}, refusals are told, {build}", refusals + faults >= 9 * (nth - 1) // 10,
                 f"{refusals} calls and {faults} runs were refused, of {nth - 1}")


def tried_run(counts, build, program, preload):
    """Row 21 as one input: what went out is a front of the whole where memory ran out of the run itself."""
    text = "\n".join(line for line, _ in ample(program, preload, SESSIONS["row 21"])).encode()
    whole = subprocess.run([program], input=text, capture_output=True, timeout=60)
    wrong = [] if whole.returncode == 0 else [("ample memory", whole.returncode)]
    for nth in range(1, MOST):
        ran, failed = refused_run([program], preload, nth, text)
        told = ran.stdout == whole.stdout or any(word.encode() in ran.stdout for word in REFUSALS)
        stopped = (ran.returncode, ran.stderr) == (1, b"memory fault\n") and whole.stdout.startswith(ran.stdout)
        if not (stopped or told and ran.returncode in (0, 2)):
            wrong.append((nth, ran.returncode, ran.stderr, ran.stdout))
        if not failed:
            break
    counts.check(f"row 21 as one input, each of {nth - 1} allocations refused, {build}",
                 not failed and not wrong and ran.stdout == whole.stdout, built.shortened(wrong[:2]))


def refused_run(command, preload, nth, text=b""):
    """A run with one allocation refused, and whether that came."""
    told, write = os.pipe()
    variables = {**os.environ, "LD_PRELOAD": str(preload), "FAIL_NTH": str(nth), "FAIL_TOLD": str(write)}
    ran = subprocess.run(command, input=text, capture_output=True, env=variables, pass_fds=[write], timeout=60)
    os.close(write)
    failed = os.read(told, 1) == b"x"
    os.close(told)
    return ran, failed


def tried_calls(counts, build, program, preload):
    """The program's calls: each refusal is told by a line, and all other lines are those of ample memory."""
    whole = subprocess.run([program], capture_output=True, timeout=60)
    lines, wrong, refusals = whole.stdout.splitlines(), [], 0
    counts.check(f"calls with ample memory, {build}", whole.returncode == 0 and b"memory" not in lines,
                 f"status {whole.returncode}")
    for nth in range(1, MOST):
        ran, failed = refused_run([program], preload, nth)
        found = ran.stdout.splitlines()
        refused = found.count(b"memory")
        refusals += refused
        if ran.returncode != 0 or not is_as_ample(lines, found) or refused > 1:
            wrong.append((nth, ran.returncode, refused, first_difference(lines, found)))
        if not failed:
            break
    counts.check(f"calls, each of {nth - 1} allocations refused, {build}", not failed and not wrong and nth > 100,
                 f"{len(wrong)} otherwise, first {built.shortened(wrong[:2])}")
    counts.check(f"refusals of calls are told, {build}", refusals >= 9 * (nth - 1) // 10, f"{refusals} of {nth - 1}")


def is_as_ample(wanted, found):
    """Whether the lines but `memory` are those of ample memory. Behind a refused round the rows stand again, as they
    stood before it."""
    found = list(found)
    while b"memory" in found:
        at = found.index(b"memory")
        del found[at]
        if found[at : at + 1] and found[at].startswith(b"rows "):
            del found[at]
    return wanted == found


def first_difference(wanted, found):
    return next(((a, b) for a, b in zip(wanted, found) if a != b), (len(wanted), len(found)))


def main():
    counts = Counts()
    compiler = shutil.which("cc")
    counts.check("a C compiler is there", compiler, "install gcc")
    with tempfile.TemporaryDirectory() as folder:
        preload = Path(folder) / "fail_nth.so"
        if compiler:
            command = [compiler, "-O1", "-Wall", "-Werror", "-shared", "-fPIC", str(HERE / "fail_nth.c"), "-o"]
            made = subprocess.run([*command, str(preload)], capture_output=True, text=True)
            counts.check("fail_nth.c is built", made.returncode == 0, made.stderr)
        if preload.is_file():
            for build, program in built.built(counts, built.MEMORY):
                tried_calls(counts, build, program, preload)
            for build, program in built.built(counts, built.LINES):
                tried_run(counts, build, program, preload)
                for name, lines in SESSIONS.items():
                    tried_lines(counts, build, program, preload, name, lines)
    counts.end()


if __name__ == "__main__":
    main()
