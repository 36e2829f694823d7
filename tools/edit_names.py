#!/usr/bin/env python3
"""Goals are named by what the code compares, so a wrong program that compares otherwise renames them, and its check would
stop at a missing name. This writes into an edit file, below each wrong program, the pairs that rename them in the proof
files of the function that its line 'refused:' names, so that the check comes to what the wrong program says.

usage: tools/edit_names.py CRATE/LABEL ..    at the top of the repository; runs the check's first part, no proofs

Pairs that it wrote before are written anew. It prints what it cannot rename."""
import json
import os
import re
import shutil
import subprocess
import sys
import tempfile

TOP = os.path.dirname(os.path.dirname(os.path.abspath(__file__)))
MARK = "file: proofs/"
TOKEN = re.compile(r"[\w'+-]+")


def read(path):
    with open(path, encoding="utf-8") as f:
        return f.read()


def names(folder):
    """What each function's goals and places are called, by their numbered names."""
    with tempfile.TemporaryDirectory() as to:
        subprocess.run(["rt", "check", "--generated", to + "/n", "--old-names"], cwd=folder, stdout=subprocess.DEVNULL, stderr=subprocess.DEVNULL, stdin=subprocess.DEVNULL)
        with open(to + "/n/names.json", encoding="utf-8") as f:
            return json.load(f)


def called(entry):
    found = {}
    for old, new in entry.get("needs", []):
        found["goal", old] = new
    for place, name in zip(entry.get("places", []), entry.get("places_by_name", [])):
        found["place", place[0]] = name
        if place[2][0]:
            found["field", place[2][0]] = place[2][1]
    for (old, new), _ in entry.get("loops", []):
        found["loop", old] = new
    return found


def renamed(right, wrong):
    """right name -> wrong name, of one function"""
    table = {}
    for key, name in right.items():
        to = wrong.get(key)
        if to and to != name:
            table[name] = to
            if key[0] == "field":
                for part in ("then", "else"):
                    if name.startswith("if-") and to.startswith("if-"):
                        table[part + name[2:]] = part + to[2:]
    return table


def steps(table):
    """In one step, or by names that nothing else has where a name is given on."""
    if not set(table) & set(table.values()):
        return [table]
    return [{a: b + "-renamed" for a, b in table.items()}, {b + "-renamed": b for b in table.values()}]


def respell(line, table):
    def one(m):
        w = m[0]
        if w in table:
            return table[w]
        head, clause, tail = w.partition("-clause-")
        if clause and head in table:
            return table[head] + clause + tail
        return w

    return TOKEN.sub(one, line)


def put(crate, to):
    for part in ("src", "specs", "proofs", "out"):
        folder = os.path.join(TOP, "crates", crate, part)
        if os.path.isdir(folder):
            shutil.copytree(folder, os.path.join(to, "crates", crate, part))


def copy(to):
    shutil.copy(os.path.join(TOP, "crates.txt"), to)
    for crate in sorted(os.listdir(os.path.join(TOP, "crates"))):
        put(crate, to)
    subprocess.run(["git", "init", "-q", to], check=True)


def blocks(text):
    """The head, and the block of each wrong program as its lines, without pairs for proof files."""
    parts = re.split(r"(?m)^(?=wrong: )", text)
    out = []
    for part in parts[1:]:
        lines, skip = [], False
        for line in part.rstrip("\n").split("\n"):
            if line.startswith("file: "):
                skip = line.startswith(MARK)
            if not (skip and re.match(r"(file|old|new): ", line)):
                lines.append(line)
        out.append(lines)
    return parts[0], out


def main():
    with tempfile.TemporaryDirectory(prefix="names-") as scratch:
        copy(scratch)
        rename(scratch)


def rename(scratch):
    right = {}
    for word in sys.argv[1:]:
        crate, label = word.split("/")
        path = os.path.join(TOP, "crates", crate, "must-fail", label + ".edit")
        head, programs = blocks(read(path))
        folder = os.path.join(scratch, "crates", crate)
        if crate not in right:
            right[crate] = names(folder)
        for lines in programs:
            file = old = None
            for line in lines:
                key, _, text = line.partition(": ")
                if key == "file":
                    file = text.strip()
                elif key == "old":
                    old = text
                elif key == "new":
                    its = os.path.join(folder, file)
                    said = read(its)
                    if said.count(old) != 1:
                        print(f"{word}: {file} has {said.count(old)} times: {old}")
                        continue
                    with open(its, "w", encoding="utf-8") as f:
                        f.write(said.replace(old, text))
        wrong = names(folder)
        for lines in programs:
            for place in [l[len("refused: ") :].split(" ")[0] for l in lines if l.startswith("refused: ")]:
                key = f"Rattle-{crate}-{place.replace('/', '.')}.Lts"
                if key not in right[crate] or key not in wrong:
                    continue
                table = renamed(called(right[crate][key]), called(wrong[key]))
                if not table:
                    continue
                for file in ("Answers.antt", "Invariants.antt"):
                    its = os.path.join(folder, place, file)
                    if not os.path.exists(its):
                        continue
                    text, pairs = read(its), []
                    for step in steps(table):
                        for line in text.split("\n"):
                            to = respell(line, step)
                            if to == line:
                                continue
                            if text.count(line) != 1:
                                print(f"{word}: {place}/{file} has a line {text.count(line)} times: {line}")
                                continue
                            text = text.replace(line, to)
                            pairs += [f"old: {line}", f"new: {to}"]
                    if pairs:
                        lines += [f"file: {place}/{file}"] + pairs
                        print(f"{word}: {place}/{file}: {len(pairs) // 2} lines")
        shutil.rmtree(folder)
        put(crate, scratch)
        with open(path, "w", encoding="utf-8") as f:
            f.write(head + "\n\n".join("\n".join(l).rstrip("\n") for l in programs) + "\n")


main()
