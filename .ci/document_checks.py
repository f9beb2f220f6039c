"""Checks the documents: their lengths, and that each crate, clause, file and word of the code that they name exists.

Usage: python3 .ci/document_checks.py [--edges], from anywhere. It compiles nothing, and takes some seconds. With `--edges` it first
writes into the table of crates of docs/ARCHITECTURE.md what each crate stands on, but for what stands below that anyway.
"""
import os
import re
import subprocess
import sys

from document_words import AREAS, Document, crates_below, edges, repository_files, source_words

README_LINES, README_WORDS, KEY_WORDS, PROMISE_WORDS, RECIPE_LINES = 130, 30, 12, 40, 30
RECIPES = ["Add a key", "Add a kind of job"]
MAP, PROMISES = "docs/ARCHITECTURE.md", ["docs/PROMISES.md", "docs/CRATE-PROMISES.md"]
QUESTIONS, WITH_CONTENTS = 20, ["docs/DEFINITIONS.md", "docs/DECISIONS.md"]
# What stands in code spans, and is no word of the code: placeholders, words of commands, names that are told as examples.
NO_WORDS = ".ci/document_words.txt"


class Faults:
    """What was found, a line each."""

    def __init__(self):
        self.lines = []

    def unless(self, holds, path, what):
        if not holds:
            self.lines.append(f"{path}: {what}")


def check_lengths(readme, faults):
    """README is short, and so are its sentences and what it says of a key."""
    faults.unless(len(readme.lines) <= README_LINES, readme.path, f"{len(readme.lines)} lines, of {README_LINES} at most")
    for sentence in readme.sentences():
        count = len(sentence.split())
        faults.unless(count <= README_WORDS, readme.path, f"a sentence of {count} words: {sentence[:60]} ..")
    for key, told in readme.rows("Keys that everybody needs"):
        faults.unless(len(told.split()) <= KEY_WORDS, readme.path, f"more than {KEY_WORDS} words on the key {key}")


def check_recipes(map_of_crates, faults):
    for title in RECIPES:
        lines = map_of_crates.section(title)
        faults.unless(lines, MAP, f"no section {title}")
        faults.unless(len(lines) <= RECIPE_LINES, MAP, f"{title}: {len(lines)} lines, of {RECIPE_LINES} at most")


def check_map(map_of_crates, crates, faults):
    """The table of crates has each crate once, lowest first, with the edges that no others imply."""
    rows = map_of_crates.crate_rows()
    named = [name for name, _ in rows]
    faults.unless(sorted(named) == sorted(crates), MAP, f"crates not told once: {sorted(set(named) ^ set(crates)) or 'twice'}")
    wanted = edges(crates)
    below = crates_below(crates)
    for place, (name, told) in enumerate(rows):
        faults.unless(told == wanted.get(name), MAP, f"{name} stands on {wanted.get(name)}, and not on {told} (see --edges)")
        late = [lower for lower in below.get(name, []) if lower in named[place:]]
        faults.unless(not late, MAP, f"{name} stands before {late}, which it stands on")
    for name in crates:
        faults.unless(os.path.exists(f"crates/{name}/README.md"), f"crates/{name}", "no README")


def check_questions(map_of_crates, faults):
    """The questions of a newcomer, each with an answer in short and the file that has all of it."""
    rows = map_of_crates.rows("Where is ..?")
    rows = [row for row in rows if len(row) == 3]
    faults.unless(len(rows) == QUESTIONS, MAP, f"{len(rows)} questions, of {QUESTIONS}")
    for question, short, place in rows:
        faults.unless(short and re.search(r"[`(#][\w./#-]+", place), MAP, f"no answer, or no file: {question}")


def check_groups(map_of_crates, faults):
    """The name of each crate tells its group: by its beginning or its end, or since it was given and is listed."""
    marks = {row[0]: re.findall(r"`(\w+)`", row[1] + row[2]) for row in map_of_crates.rows("The map") if len(row) == 3}
    group = None
    for line in map_of_crates.section_below("The crates"):
        crate = re.match(r"\| `(\w+)` \|", line)
        group = line.strip("# ").lower() if line.startswith("### ") else group
        if crate and group:
            told = [mark for mark in marks.get(group, []) if crate[1] == mark or mark.endswith("_") and crate[1].startswith(mark)
                    or mark.startswith("_") and crate[1].endswith(mark)]
            faults.unless(told, MAP, f"the name {crate[1]} doesn't tell the group {group}")


def check_contents(document, faults):
    """A long document opens with links to all its sections."""
    opening, _, _ = document.text.partition("\n## ")
    for line in document.lines:
        if line.startswith("## "):
            anchor = re.sub(r"[^\w -]", "", line.strip("# ").lower()).replace(" ", "-")
            faults.unless(f"(#{anchor})" in opening, document.path, f"its contents lack {line.strip('# ')}")


def check_definitions(document, faults):
    """Each word of an entry of the definitions stands in one of the files that the entry names."""
    for entry in re.split(r"\n(?=- \*\*|\n|#)", document.text):
        told = re.match(r"- \*\*(.+?)\*\*\s*\(([^)]*)\)", entry.replace("\n", " "))
        folder, text = "", ""
        for path in re.findall(r"`([\w/]+\.antt)`", entry) if told else []:
            folder = os.path.dirname(path) or folder
            places = [f"crates/{folder}/{os.path.basename(path)}", f"crates/{folder.split('/')[0]}/proofs/{os.path.basename(path)}"]
            place = next(filter(os.path.exists, places), None)
            faults.unless(place, document.path, f"{told[1]}: no file {path}")
            if place:
                with open(place, encoding="utf-8") as file:
                    text += file.read()
        for word in re.findall(r"`(\w+)`", told[2]) if told else []:
            faults.unless(re.search(rf"\b{word}\b", text), document.path, f"{told[1]}: {word} stands in none of its files")


def signatures(text, name):
    """The functions of this name in a source, each from its name to its body, with their contracts."""
    for found in re.finditer(rf"\bfn {name}\b", text):
        lines, depth = [], 0
        for line in text[found.start() :].splitlines():
            if line.lstrip().startswith("//"):
                continue
            lines.append(line)
            begins_body = line.rstrip().endswith(("{", "{}")) and depth == 0 and not re.match(r"\s*(ensures|requires)", line)
            if begins_body or (line.rstrip().endswith(";") and depth + line.count("{") == line.count("}")):
                break
            depth += line.count("{") - line.count("}")
        yield "\n".join(lines)


def contract_of(crate, call):
    """The contracts of the calls of this name in a crate, as text."""
    found = []
    for folder, _, files in os.walk(f"crates/{crate}/src"):
        for file in files:
            with open(os.path.join(folder, file), encoding="utf-8") as source:
                found += signatures(source.read(), call.split("::")[-1])
    return "\n".join(found)


def has_field(field):
    """Whether a record of the definitions has such a field."""
    for folder, _, files in os.walk("crates"):
        for file in files if folder.endswith("/specs") else []:
            with open(f"{folder}/{file}", encoding="utf-8") as source:
                if re.search(rf"^ +pub {field} :", source.read(), re.M):
                    return True
    return False


def check_clause(path, crate, call, clauses, faults):
    """A crate has the call, and it or the trait of devices that it meets has the clauses."""
    contract = contract_of(crate, call)
    faults.unless(contract, path, f"{crate} has no call {call}")
    of_trait = contract_of("tree_trait", call)
    for clause, _, field in (it.partition(".") for it in clauses):
        faults.unless(not field or has_field(field), path, f"no record has a field {field}")
        label = rf"\b{clause}\b" if clause == "ensures" else rf"\b(ensures|requires)\*? {clause}\b"
        stands = re.search(label, contract) or re.search(label, of_trait)
        faults.unless(not contract or stands, path, f"{call} of {crate} has no clause {clause}")


def check_wrong_bodies(path, cell, faults):
    for edit, crate in re.findall(r"`(\w+)` \(`(\w+)`\)", cell):
        places = [f"crates/{crate}/must-fail/{edit}.edit", f"bench/wrong_bodies/{crate}/{edit}.edit"]
        faults.unless(any(map(os.path.exists, places)), path, f"no wrong body {edit} of {crate}")


def check_promises(promises, faults):
    """Each row is one short sentence with a call, its clauses, and its wrong bodies."""
    rows, path = list(promises.promise_rows()), promises.path
    faults.unless(rows, path, "no rows")
    for crate, sentence, clause, wrong in rows:
        count = len(sentence.split())
        faults.unless(count <= PROMISE_WORDS, path, f"a promise of {count} words: {sentence[:60]} ..")
        faults.unless(not re.search(r"[.;] \S", sentence), path, f"more than one sentence: {sentence[:60]} ..")
        calls = re.findall(r"`([\w:]+)`: ((?:`[\w.]+`(?:, )?)+)", clause)
        faults.unless(calls or "invariant of `" in clause, path, f"no clause: {sentence[:60]} ..")
        for call, clauses in calls:
            check_clause(path, crate, call, re.findall(r"[\w.]+", clauses), faults)
        check_wrong_bodies(path, wrong, faults)


def check_names(documents, tracked, faults):
    """Each path and each word of the code in a code span exists, or is one of those that are no word of the code."""
    files, words = repository_files(tracked), source_words(tracked)
    with open(NO_WORDS, encoding="utf-8") as file:
        examples = set(file.read().split())
    needed = set()
    for document in documents:
        lacking = [path for path in document.paths() if path not in files and "out" not in path.split("/")]
        lacking += [word for word in document.words() if word not in words]
        needed.update(lacking)
        for name in sorted(set(lacking) - examples):
            faults.unless(False, document.path, f"nothing of the repository is called {name}")
    faults.unless(needed >= examples, NO_WORDS, f"no document needs {sorted(examples - needed)}")


def check_links(document, faults):
    """There is each place to which a link leads."""
    for target, anchor in document.links():
        path = os.path.normpath(os.path.join(os.path.dirname(document.path), target)) if target else document.path
        faults.unless(os.path.exists(path), document.path, f"a link to {target}, which isn't there")
        if anchor and path.endswith(".md") and os.path.exists(path):
            faults.unless(anchor in Document(path).anchors(), document.path, f"a link to {target}#{anchor}, which isn't there")


def main():
    os.chdir(os.path.join(os.path.dirname(os.path.abspath(__file__)), ".."))
    tracked = subprocess.run(["git", "ls-files"], capture_output=True, text=True, check=True).stdout.split("\n")[:-1]
    tracked = [path for path in tracked if os.path.exists(path)]
    with open("crates.txt", encoding="utf-8") as file:
        lines = [line.split(":") for line in file if ":" in line and not line.startswith("#")]
    crates = {name.strip(): stands_on.split() for name, stands_on in lines}
    if "--edges" in sys.argv:
        Document(MAP).write_edges(edges(crates))
    faults = Faults()
    documents = [Document(path) for path in tracked if path.endswith(".md") and path.split("/")[0] in AREAS]
    readme = Document("README.md")
    check_lengths(readme, faults)
    check_recipes(Document(MAP), faults)
    check_map(Document(MAP), crates, faults)
    check_questions(Document(MAP), faults)
    check_groups(Document(MAP), faults)
    check_definitions(Document("docs/DEFINITIONS.md"), faults)
    for path in WITH_CONTENTS:
        check_contents(Document(path), faults)
    for path in PROMISES:
        check_promises(Document(path), faults)
    check_names(documents, tracked, faults)
    for document in documents:
        check_links(document, faults)
        told = not document.path.startswith("docs/") or f"({document.path})" in readme.text
        faults.unless(told, readme.path, f"{document.path} isn't named")
    print("\n".join(faults.lines) or "documents: all that they name is there")
    sys.exit(1 if faults.lines else 0)


if __name__ == "__main__":
    main()
