"""The lines of each floor of each crate's book, and whether the first floor stands alone.

    python3 docs/floors.py           prints a table; status 1 where a file of the first floor imports another floor
    python3 docs/floors.py --files   prints the files of the first floor, each with its lines and its sentence

The first floor is `specs/*.antt`: what a public clause needs to be read. `specs/Inner` is what models and private
clauses cite, `specs/Laws` theorems that others cite, `proofs` theorems that the crate's own proofs cite.
"""

import pathlib
import re
import sys

ROOT = pathlib.Path(__file__).resolve().parent.parent
CRATES = [line.split(":")[0] for line in (ROOT / "crates.txt").read_text().splitlines() if ":" in line]
OTHER_FLOOR = re.compile(r"^(?:unfoldable )?(?:pub )?use Rattle\.(\w+)\.(?:specs\.Inner|specs\.Laws|proofs)\b")
INDEXES = ("Lib.antt", "Inner.antt", "Laws.antt")
# What a node shows of its parts cites the model of views: it counts as of the second floor, whose words it has, though it stands on the first.
INNER = ("crates/sw_tree/specs/Content.antt",)


def lines(path):
    return len(path.read_text().splitlines())


def below(folder):
    return sum(lines(path) for path in folder.rglob("*.antt"))


def is_inner(path):
    return str(path.relative_to(ROOT)) in INNER


def right_in_specs(crate):
    return [path for path in sorted((ROOT / "crates" / crate / "specs").glob("*.antt")) if path.name not in INDEXES]


def first_floor(crate):
    return [path for path in right_in_specs(crate) if not is_inner(path)]


def sentence(path):
    head = []
    for line in path.read_text().splitlines():
        if not line.startswith("-- "):
            break
        head.append(line[3:])
    return " ".join(head)


def imports_of_other_floors(path):
    for number, line in enumerate(path.read_text().splitlines(), 1):
        found = OTHER_FLOOR.match(line)
        if found and found[1] in CRATES:
            yield f"{path.relative_to(ROOT)}:{number}: {line}"


def print_files():
    print("| File | Lines | What it says |\n|---|---|---|")
    for crate in CRATES:
        first = first_floor(crate)
        print(f"| **`{crate}`** | **{sum(map(lines, first))}** | **all of the crate** |")
        for path in first:
            link = f"[{path.stem}](../{path.relative_to(ROOT)})"
            print(f"| {link} | {lines(path)} | {sentence(path)} |")


def main():
    if "--files" in sys.argv:
        print_files()
        return 0
    rows = {}
    findings = []
    for crate in CRATES:
        folder = ROOT / "crates" / crate
        first = first_floor(crate)
        for path in first:
            findings.extend(imports_of_other_floors(path))
        others = [folder / "specs" / "Inner", folder / "specs" / "Laws", folder / "proofs"]
        rows[crate] = [sum(map(lines, first))] + [below(other) for other in others]
        rows[crate][1] += sum(lines(path) for path in right_in_specs(crate) if is_inner(path))
    rows["all"] = [sum(column) for column in zip(*rows.values())]
    print(f"{'crate':12}{'first':>8}{'Inner':>8}{'Laws':>8}{'proofs':>8}")
    for crate, row in rows.items():
        print(f"{crate:12}" + "".join(f"{count:8}" for count in row))
    for finding in findings:
        print(finding)
    return 1 if findings else 0


sys.exit(main())
