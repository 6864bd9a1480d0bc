#!/usr/bin/env python3
"""Times the proved program beside `jq -c .`, and beside the document read and write of RapidJSON and simdjson, where
their headers are there (Debian's rapidjson-dev, libsimdjson-dev).

Usage: bench/recode.py [ROUNDS]

For each profile it recodes a text of up to 1, 2 and 4 MB and prints the best time, the peak memory and ratios. The
program is the one that `./sw --prove` builds.
"""

import json
import os
import platform
import random
import shutil
import subprocess
import sys
import tempfile

TOP = os.path.dirname(os.path.dirname(os.path.abspath(__file__)))
PROGRAM = os.path.join(TOP, "crates", "sw_tool", "out", "sw_tool")
LIMIT = 4_194_304
KIB = 1024


def filled(size, choose_part):
    """A list of parts in at most so many bytes."""
    parts, length = [], 2
    while True:
        part = choose_part()
        more = len(part.encode()) + 1
        if length + more > size:
            return ("[" + ",".join(parts) + "]").encode()
        parts.append(part)
        length += more


def number_texts(size):
    """A list of number texts: ["12","4567", ..]."""
    choose = random.Random(7)
    return filled(size, lambda: '"%d"' % choose.randrange(10 ** choose.randrange(1, 10)))


def numbers_and_texts(size):
    """A list of numbers and number texts: [12,"4567", ..]."""
    choose = random.Random(3)
    return filled(size, lambda: choose.choice(("%d", '"%d"')) % choose.randrange(10 ** choose.randrange(1, 10)))


def byte_table(size):
    """A map from number texts to lists of up to seven bytes: {"12":[0,255], ..}."""
    choose = random.Random(5)

    def entry():
        row = ",".join(str(choose.randrange(256)) for _ in range(choose.randrange(8)))
        return '"%d":[%s]' % (choose.randrange(-(10**6), 10**6), row)

    return b"{" + filled(size, entry)[1:-1] + b"}"


def as_it_is(text):
    return text


def without_quotes(text):
    return text.replace(b'"', b"")


def mixed_nodes(size):
    """A list of records of numbers, texts with and without escapes, literals, lists and maps, as compact text."""
    choose = random.Random(11)
    words = 'the quick brown fox jumps over a lazy dog while naïve readers sip café crème and "quote" lines a/b π done'.split()

    def text(count):
        return " ".join(choose.choice(words) for _ in range(count))

    def record():
        return json.dumps(
            {
                "id": choose.randrange(2**53),
                "name": text(2),
                "text": text(choose.randrange(6, 25)) + choose.choice(["", "", "", "\n"]),
                "tags": [choose.choice(words) for _ in range(choose.randrange(4))],
                "on": choose.choice([True, False, None]),
                "at": {"x": choose.randrange(-1000, 1000), "y": [choose.randrange(100), choose.randrange(10**6)]},
                "more": {},
            },
            ensure_ascii=False,
            separators=(",", ":"),
        )

    return filled(size, record)


# Runs one command from a file into a file, in a process small enough not to hide the command's own memory.
LAUNCHER = """
import resource, subprocess, sys, time
source, target, *command = sys.argv[1:]
with open(source, "rb") as text, open(target, "wb") as output:
    began = time.perf_counter()
    subprocess.run(command, stdin=text, stdout=output, check=True)
    took = time.perf_counter() - began
print(took, resource.getrusage(resource.RUSAGE_CHILDREN).ru_maxrss)
"""


def run_once(command, source, target):
    """Seconds and peak memory in bytes of one run."""
    launched = [sys.executable, "-S", "-c", LAUNCHER, source, target, *command]
    took, peak = subprocess.run(launched, stdout=subprocess.PIPE, check=True).stdout.split()
    return float(took), int(peak) * KIB


def best(commands, text, rounds, folder):
    """The best time, the peak memory and the output of each command. They run in turn, so that all meet the same machine."""
    source, target = os.path.join(folder, "input"), os.path.join(folder, "output")
    with open(source, "wb") as file:
        file.write(text)
    runs, outputs = [[] for _ in commands], []
    for _ in range(rounds):
        for command, done in zip(commands, runs):
            done.append(run_once(command, source, target))
            if len(outputs) < len(commands):
                with open(target, "rb") as file:
                    outputs.append(file.read())
    return [(min(run[0] for run in done), max(run[1] for run in done), output) for done, output in zip(runs, outputs)]


# Name, source, a header that has to be there, and what it is linked with.
YARDSTICKS = [
    ("RapidJSON", "rapidjson.cc", "/usr/include/rapidjson/document.h", []),
    ("simdjson", "simdjson.cc", "/usr/include/simdjson.h", ["-lsimdjson"]),
]


def yardsticks(folder):
    """Each library's read and write of a document, compiled where its headers and a compiler are there."""
    compiler = shutil.which("g++")
    found = []
    for name, source, header, libraries in YARDSTICKS:
        if compiler is None or not os.path.exists(header):
            continue
        built = os.path.join(folder, name)
        subprocess.run([compiler, "-O2", "-o", built, os.path.join(TOP, "bench", source), *libraries], check=True)
        found.append((name, [built]))
    return found


def revision():
    """The revision of the sources, where git tells it."""
    if shutil.which("git") is None:
        return "unknown"
    said = subprocess.run(["git", "-C", TOP, "describe", "--always", "--dirty"], stdout=subprocess.PIPE)
    return said.stdout.decode().strip() or "unknown"


def measure(profile, make_text, written, rounds, peers, folder):
    """Times one profile, and its peers on the largest text; `written` gives what is written of a text."""
    times = {}
    for size in (LIMIT // 4, LIMIT // 2, LIMIT):
        text = make_text(size)
        beside = peers if size == LIMIT else []
        commands = [[PROGRAM, "recode", profile]] + [command for _, command in beside]
        (took, peak, output), *others = best(commands, text, rounds, folder)
        assert output == written(text) + b"\n", "the output isn't what is to be written"
        times[size] = took
        print(
            "recode %-5s %7d bytes: %.4f s, %6.1f MB/s, peak %5.1f MB = %4.1f times the input"
            % (profile, len(text), took, len(text) / took / 1e6, peak / 1e6, peak / len(text))
        )
        for (name, _), (other, other_peak, output) in zip(beside, others):
            assert output.rstrip(b"\n") == text, name
            print(
                "  %-10s %.4f s, peak %.1f MB; it takes %.2f times as long as recode, recode %.2f times as long as it"
                % (name, other, other_peak / 1e6, other / took, took / other)
            )
    print("  time of 4 MB over time of 1 MB: %.2f" % (times[LIMIT] / times[LIMIT // 4]))


def main():
    rounds = int(sys.argv[1]) if len(sys.argv) > 1 else 5
    if not os.path.exists(PROGRAM):
        sys.exit("build the program first: ./sw --prove")
    print("revision: %s; machine: %s, %d processors" % (revision(), platform.machine(), os.cpu_count()))
    with tempfile.TemporaryDirectory() as folder:
        peers = yardsticks(folder)
        jq = shutil.which("jq")
        # jq keeps one entry of those with equal keys, which the table has.
        all_peers = peers if jq is None else [*peers, ("jq -c .", [jq, "-c", "."])]
        for profile, make_text, written, beside in (
            ("any", mixed_nodes, as_it_is, all_peers),
            ("ids", number_texts, as_it_is, all_peers),
            ("flex", numbers_and_texts, without_quotes, peers),
            ("table", byte_table, as_it_is, peers),
        ):
            measure(profile, make_text, written, rounds, beside, folder)


main()
