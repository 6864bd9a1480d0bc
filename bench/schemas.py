"""Holds what the program writes against the schema that it publishes, with a validator of JSON Schema 2020-12.

For each profile the schema is what `schema P` prints, and generated texts are recoded by `recode P`; what that writes has to
be valid for the schema. A text that the nest refuses is counted apart. Of each schema it is also asked that it is a schema of
that draft, and that it refuses something, but for the profiles whose schema takes every tree.

    python3 bench/schemas.py [texts for each profile]

It needs the package `jsonschema` and the proved program, `crates/sw_tool/out/sw_tool`.
"""

import json
import random
import subprocess
import sys

from jsonschema import Draft202012Validator

PROGRAM = "crates/sw_tool/out/sw_tool"
SEED = 11
BLAMED = ("lists", "keys")
TAKES_ALL = ("any",)


def text(r):
    return "".join(r.choice('ab01 "\\é\n😀') for _ in range(r.randrange(6)))


def number(r):
    return r.choice([0, 1, 255, 256, -1, 4294967295, 4294967296, r.randrange(-300, 300)])


def small(r):
    return r.randrange(256)


def tree(r, levels=3):
    kind = r.randrange(6 if levels else 4)
    if kind == 4:
        return [tree(r, levels - 1) for _ in range(r.randrange(4))]
    if kind == 5:
        return {text(r): tree(r, levels - 1) for _ in range(r.randrange(4))}
    return [None, r.random() < 0.5, number(r), text(r)][kind]


def up_to(r, most, make):
    return [make(r) for _ in range(r.randrange(most))]


def natural(r):
    return r.choice([0, 7, 255, 4294967295, r.randrange(1 << 32)])


def table(r):
    return {str(r.randrange(-50, 50)): up_to(r, 4, small) for _ in range(r.randrange(5))}


def named(r):
    return {text(r): tree(r, 2) for _ in range(r.randrange(4))}


def settings(r):
    ids = up_to(r, 4, lambda r: str(natural(r)))
    value = {
        "name": text(r),
        "ids": ids[0] if len(ids) == 1 and r.random() < 0.5 else ids,
        "labels": {text(r): text(r) for _ in range(r.randrange(4))},
    }
    if r.random() < 0.7:
        value["limits"] = r.choice([None, [natural(r), natural(r)]])
    if r.random() < 0.3:
        value["other"] = tree(r, 1)
    return value


PROFILES = {
    "ids": lambda r: up_to(r, 6, lambda r: str(natural(r))),
    "any": tree,
    "table": table,
    "flex": lambda r: up_to(r, 6, lambda r: r.choice([natural(r), str(natural(r))])),
    "names": lambda r: r.choice([text(r), up_to(r, 4, text)]),
    "wrap": lambda r: r.choice([named(r), up_to(r, 4, named)]),
    "settings": settings,
}


def run(words, given=b""):
    done = subprocess.run([PROGRAM, *words], input=given, capture_output=True, check=False)
    return done.returncode, done.stdout


def schema_of(profile):
    status, printed = run(["schema", profile])
    if status != 0:
        sys.exit(f"schema {profile} ended with {status}")
    schema = json.loads(printed)
    Draft202012Validator.check_schema(schema)
    return Draft202012Validator(schema)


def check(profile, count):
    validator = schema_of(profile)
    make = PROFILES[profile]
    r = random.Random(SEED)
    valid, refused, told = 0, 0, False
    for _ in range(count):
        # now and then a text of no profile, so that the schema is seen to refuse something
        value = make(r) if r.random() < 0.9 else tree(r)
        told = told or not validator.is_valid(tree(r))
        status, written = run(["recode", profile], json.dumps(value).encode())
        if status != 0:
            refused += 1
            continue
        document = json.loads(written)
        if not validator.is_valid(document):
            print(f"{profile}: not valid: {written!r}")
            return False
        valid += 1
    if not told and profile not in TAKES_ALL:
        print(f"{profile}: the schema refused nothing")
        return False
    print(f"{profile}: {valid} texts that were written are valid, {refused} were refused by the nest")
    return valid > 0


def main():
    count = int(sys.argv[1]) if len(sys.argv) > 1 else 300
    for profile in BLAMED:
        schema_of(profile)
    sys.exit(0 if all([check(profile, count) for profile in PROFILES]) else 1)


main()
