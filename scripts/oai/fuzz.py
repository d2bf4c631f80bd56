"""Runs the program on scripts at random, and compares what it answers with a model."""

import collections
import json
import os
import re
import subprocess
import tempfile
from concurrent.futures import ProcessPoolExecutor

from oai.author import Author, as_asked, asked_script
from oai.pieces import single_script, traced_script
from oai.programs import oaihost
from oai.servers import PATIENCE, write_configuration

CACHES = [1, 2, 64]

# How many scripts are run side by side.
JOBS = int(os.environ.get("JOBS", "2"))

# How much of a line and of an output is shown where outcomes differ.
SHOWN = 300

# Where the prefixes that show differences are written.
FOLDER = os.environ.get("FOLDER", tempfile.gettempdir())


class Runner:
    """Runs the program with each of the three configurations, which differ in their caches alone; the same run only once."""

    def __init__(self, folder, configuration):
        self.paths, self.runs = {}, {}
        for cache in CACHES:
            self.paths[cache] = f"{folder}/{cache}.json"
            write_configuration(self.paths[cache], {"cache": cache} | configuration)

    def run(self, command, cache, text):
        """The output, the status and the message."""
        key = command, cache, text
        if key not in self.runs:
            self.runs[key] = self.run_anew([oaihost(), command, self.paths[cache]], text.encode())
        return self.runs[key]

    def run_anew(self, command, data):
        try:
            ran = subprocess.run(command, input=data, capture_output=True, timeout=PATIENCE, check=False)
        except subprocess.TimeoutExpired:
            return b"", None, f"it has not ended within {PATIENCE} seconds"
        return ran.stdout, ran.returncode, ran.stderr.decode(errors="replace")


def encoded(outcome):
    output, status, said = outcome
    return output.encode(), status, said


def traced_answers(output):
    """What a trace with one connection wrote, in the form in which `ask` writes the same answers."""
    data = b"".join(bytes.fromhex(it.split(b" ")[1].decode()) for it in output.splitlines() if not it.endswith(b" close"))
    answers = []
    while data:
        head, _, data = data.partition(b"\r\n\r\n")
        fields = dict(re.findall(rb"\r\n([^:]+): ([^\r]*)", head))
        length = int(fields[b"Content-Length"])
        seconds = fields.get(b"Retry-After")
        answers.append(as_asked(head.split(b" ")[1].decode(), seconds and seconds.decode(), "").encode() + data[:length])
        data = data[length:]
    return b"".join(answers)


class Script:
    """One script: exchanges for `ask`, the same as pieces for `trace`, and the same on one connection. A comparison is of outcomes that must
    be equal, for the first so many lines of its input."""

    def __init__(self, seed, lines):
        author = Author(seed, has_texts=True)
        self.seed, self.configuration = seed, author.configuration
        self.exchanges, self.asked = asked_script(author, lines)
        self.finished = sum(it.finished for it in author.host.repositories.values())
        self.traced = traced_script(author, self.exchanges)
        self.single, self.ends = single_script(author, self.exchanges)

    def asked_outcomes(self, runner, count):
        outcomes = {f"cache {it}": runner.run("ask", it, self.asked.input(count)) for it in CACHES}
        return outcomes | {"the model": encoded(self.asked.outcome(count))}

    def traced_outcomes(self, runner, count):
        outcomes = {f"cache {it}": runner.run("trace", it, self.traced.input(count)) for it in CACHES}
        return outcomes | {"the model": encoded(self.traced.outcome(count))}

    def single_outcomes(self, runner, count):
        pieces = self.single.input(self.ends[count - 1])
        output, status, said = runner.run("trace", CACHES[0], pieces)
        exchanges = "".join(it.line() + "\n" for it in self.exchanges[:count])
        return {"ask": runner.run("ask", CACHES[0], exchanges), "trace": (traced_answers(output), status, said)}

    def comparisons(self):
        """Each with its name, its input as lines, and its outcomes."""
        return [
            ("ask", self.asked.lines, self.asked_outcomes),
            ("trace", self.traced.lines, self.traced_outcomes),
            ("ask and trace of one connection", [it.line() for it in self.exchanges], self.single_outcomes),
        ]


def unlike(outcomes):
    """The names of the outcomes that are not as the first."""
    first, *others = outcomes
    return [it for it in others if outcomes[it] != outcomes[first]]


def smallest_prefix(outcomes_of, count):
    """The fewest first lines whose outcomes differ, where those of `count` lines do: what is written for a line does not depend on later ones."""
    equal, differing = 0, count
    while equal + 1 < differing:
        middle = (equal + differing) // 2
        if unlike(outcomes_of(middle)):
            differing = middle
        else:
            equal = middle
    return differing


def difference(script, name, lines, outcomes_of):
    """Says where the outcomes differ first, and writes the lines that show it into a file."""
    count = smallest_prefix(outcomes_of, len(lines))
    path = f"{FOLDER}/fuzz-{script.seed}-{name.replace(' ', '-')}.txt"
    with open(path, "w", encoding="utf-8", newline="") as it:
        it.write("".join(line + "\n" for line in lines[:count]))
    outcomes = outcomes_of(count)
    first, *_ = outcomes
    told = [f"seed {script.seed}, {name}: the first {count} lines show it ({path}); the last of them is {lines[count - 1][:SHOWN]}"]
    for other in unlike(outcomes):
        equal = len(os.path.commonprefix([outcomes[first][0], outcomes[other][0]]))
        for it in (first, other):
            output, status, said = outcomes[it]
            told.append(f"    {it}: status {status}, {said!r}, from byte {equal} on {output[equal : equal + SHOWN]!r}")
    return "\n".join(told)


def seen_of_ask(output):
    """How often each status, line of a deposit and error code comes."""
    statuses = re.findall(r"^(\d{3})(?: \d+)*$", output, re.MULTILINE)
    lines = re.findall(r"^(ok|refused \d+ [a-z-]+)(?: [\dTZ:-]+)?$", output, re.MULTILINE)
    return collections.Counter(statuses + lines + re.findall(r'<error code="(\w+)">', output))


def seen_of_trace(output):
    texts = (bytes.fromhex(it.split(" ")[1]).decode() for it in output.splitlines() if not it.endswith(" close"))
    return collections.Counter(status for it in texts for status in re.findall(r"^HTTP/1\.1 (\d{3}) ", it, re.MULTILINE))


def try_script(seed, lines):
    """Runs one script, and gives its differences, its numbers of lines and of lists read to their ends, and what was seen."""
    script = Script(seed, lines)
    differences, outputs = [], []
    with tempfile.TemporaryDirectory(prefix="oaihost-") as folder:
        runner = Runner(folder, script.configuration)
        for name, given, outcomes in script.comparisons():

            def outcomes_of(count, outcomes=outcomes):
                return outcomes(runner, count)

            whole = outcomes_of(len(given))
            outputs.append(next(iter(whole.values()))[0].decode())
            if unlike(whole):
                differences.append(difference(script, name, given, outcomes_of))
    counts = collections.Counter(asked=len(script.asked.lines), traced=len(script.traced.lines), finished=script.finished)
    return differences, counts, seen_of_ask(outputs[0]), seen_of_trace(outputs[1])


def in_words(seen):
    def place(name):
        number = re.search(r"\d+", name)
        return (not name[0].isdigit(), int(number[0]) if number else 0, name)

    return ", ".join(f"{name}: {seen[name]}" for name in sorted(seen, key=place))


def fuzz(scripts: int = 1000, lines: int = 200, seed: int = 57):
    """Compares what the program answers to scripts at random.

    A script is a number of exchanges with three repositories: deposits, small, large, refused and again; deletions,
    purges, sets; all verbs, tokens, bad arguments, lines that are none; moments that rise, stand and fall. For each:
      ask    is run with caches of 1, 2 and 64 pages: output, status and message are equal, and are those of a model in Python (scripts/oai/model.py)
      trace  is given the same exchanges as messages on one to four connections, cut at random and in turns, some of them closing: the same
      both   with all messages on one connection, the answers of trace are those of ask
    It says how often each status and error was answered, and of each difference the seed and the fewest first lines
    that show it, which it writes into a file of the folder FOLDER (that of temporary files if it is not set). The last
    line is `N scripts, M differences`; the status is 0 where M is 0. A script has a seed of its own, SEED and the ones
    after it: one is run again by `scripts/run fuzz 1 LINES ITS-SEED`. JOBS is how many scripts run side by side, 2 if
    not set.
    """
    oaihost()
    found, counts, asked, traced = 0, collections.Counter(), collections.Counter(), collections.Counter()
    with ProcessPoolExecutor(JOBS) as pool:
        for differences, *counted in pool.map(try_script, range(seed, seed + scripts), [lines] * scripts):
            for it in differences:
                print(it, flush=True)
            found += len(differences)
            for total, more in zip((counts, asked, traced), counted):
                total.update(more)
    print(f"seed {seed}, {scripts} scripts, {counts['asked']} lines of ask, {counts['traced']} lines of trace")
    print(f"answers of ask: {in_words(asked)}")
    print(f"answers of trace: {in_words(traced)}")
    print(f"lists that were read to their ends: {counts['finished']}")
    print(f"{scripts} scripts, {found} differences")
    return int(found > 0)


# ---- lives, for tests

LIVES = 20
EXCHANGES = 9


def hash_of(data):
    """The 64-bit FNV-1a hash of the bytes."""
    value = 0xCBF29CE484222325
    for byte in data:
        value = (value ^ byte) * 0x100000001B3 % 2**64
    return value


def is_plain(line):
    """Whether a raw text can hold it in one line."""
    return line.isprintable() and '"##' not in line and len(line) < 1_000


def next_line(author, is_late):
    """What is asked next, and what is told of the answer."""
    while True:
        it = author.exchange(is_late=is_late)
        if is_plain(it.line()) and it.line().split(" ")[0].lstrip("-").isdigit():
            break
    answer = author.host.exchange(*it)
    body = answer.body.encode()
    seconds = "-" if answer.seconds is None else answer.seconds
    return f"{answer.status} {seconds} {len(body)} {hash_of(body)} {it.line()}"


def lives(seed: int = 4):
    """Writes a file of crates/tests_serving: twenty lives of three repositories, as the model answers what is asked in them.

    They stand one behind the other. Of each answer stand its status, how many bytes its body has, and their 64-bit
    FNV-1a hash. What is asked is as `fuzz` asks it. It is written to standard output, for
    crates/tests_serving/src/written_lives.rt.
    """
    author = Author(seed)
    lines = []
    for life in range(LIVES):
        lines += [next_line(author, life * 4 > LIVES * 3) for _ in range(EXCHANGES)] + ["end"]
    made = json.dumps({"cache": 1} | author.configuration)
    print("//! Twenty lives of three repositories, as a model answers what is asked in them: written by scripts/run lives. A line is an answer's status, the seconds")
    print("//! of a 503, how many bytes its body has and their 64-bit FNV-1a hash, and then what is asked: the moment, the method, the target, and the body.\n")
    print("/// Their configuration.\npub(crate) fn configuration() -> &'static str {\n    r##\"" + made + '"##\n}\n')
    print("/// What is asked and answered in them; each ends with the line `end`.\npub(crate) fn lives() -> &'static str {\n    r##\"" + "\n".join(lines) + '"##\n}')
