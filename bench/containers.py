"""Times the containers of `sw_examples` on inputs whose length doubles three times.

Each row is one JSON text, read, recoded and kept by the proved program `crates/sw_examples/out/sw_examples`.
The time of an empty row is taken off, and each time is the best of several runs. What grows as n log n
takes a little more than twice as long for twice the length; a quadratic step takes four times as long.

    python3 bench/containers.py [runs]
"""

import random
import subprocess
import sys
import time

PROGRAM = "crates/sw_examples/out/sw_examples"
LENGTHS = [25_000, 50_000, 100_000, 200_000]
SEED = 7


def numbers(count):
    """Numbers in random order, each once."""
    chosen = list(range(count))
    random.Random(SEED).shuffle(chosen)
    return chosen


def texts(count):
    return "[" + ",".join(f'"{n}"' for n in numbers(count)) + "]"


def entries(count):
    return "{" + ",".join(f'"{n}":{n}' for n in numbers(count)) + "}"


def labelled(count):
    return "{" + ",".join(f'"{n}":"{n}"' for n in numbers(count)) + "}"


def pairs(count):
    return "[" + ",".join(f'[{n},"{n}"]' for n in numbers(count)) + "]"


def lists(count):
    return "[" + ",".join(f"[{n},{n}]" for n in numbers(count)) + "]"


NESTS = [
    ("Vec<DisplayFromStr> of Vec<u32>", texts, "[]"),
    ("VecDeque<DisplayFromStr> of VecDeque<u32>", texts, "[]"),
    ("LinkedList<DisplayFromStr> of LinkedList<u32>", texts, "[]"),
    ("Box<[DisplayFromStr]> of Box<[u32]>", texts, "[]"),
    ("BTreeSet<DisplayFromStr> of BTreeSet<u32>", texts, "[]"),
    ("HashSet<DisplayFromStr> of HashSet<u32>", texts, "[]"),
    ("BTreeMap<Same, Same> of Vec<(u32, u32)>", entries, "{}"),
    ("HashMap<Same, Same> of HashMap<u32, u32>", entries, "{}"),
    ("BTreeMap<Same, DisplayFromStr> of BTreeMap<String, u32>", labelled, "{}"),
    ("Map<Same, DisplayFromStr> of LinkedList<(u32, u32)>", labelled, "{}"),
    ("Map<Same, DisplayFromStr> of HashSet<(u32, u32)>", labelled, "{}"),
    ("Vec<(Same, DisplayFromStr)> of BTreeMap<u32, u32>", pairs, "[]"),
    ("Seq<(Same, Same)> of HashMap<u32, u32>", lists, "[]"),
    ("OneOrMany<DisplayFromStr, PreferOne> of VecDeque<u32>", texts, "[]"),
    ("OneOrMany<DisplayFromStr, PreferOne> of BTreeSet<u32>", texts, "[]"),
]


def took(nest, text):
    """How long the program takes for one row, and whether it answered a text."""
    lines = f"{nest}\n\t{text}\n".encode()
    start = time.perf_counter()
    done = subprocess.run([PROGRAM], input=lines, capture_output=True, check=True)
    spent = time.perf_counter() - start
    answer = done.stdout.split(b"\n")[1].split(b"\t")[2]
    return spent, answer[:1] in (b"[", b"{")


def best(nest, text, runs):
    times = []
    for _ in range(runs):
        spent, is_text = took(nest, text)
        if not is_text:
            sys.exit(f"{nest}: no text was answered")
        times.append(spent)
    return min(times)


def main():
    runs = int(sys.argv[1]) if len(sys.argv) > 1 else 5
    print(f"{'nest':58}" + "".join(f"{n:>10}" for n in LENGTHS) + "   ms; then each over the one before")
    for nest, make, empty in NESTS:
        base = best(nest, empty, runs)
        times = [max(best(nest, make(n), runs) - base, 1e-6) for n in LENGTHS]
        ratios = [later / earlier for earlier, later in zip(times, times[1:])]
        print(f"{nest:58}" + "".join(f"{1000 * t:10.1f}" for t in times) + "   " + " ".join(f"{r:.2f}" for r in ratios))


if __name__ == "__main__":
    main()
