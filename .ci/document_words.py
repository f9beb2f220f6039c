"""What documents are made of: sentences, tables, code spans, links; and what a repository has that they may name."""
import os
import re

AREAS = ["README.md", "docs", "crates", "bench"]
WORD = re.compile(r"[A-Za-z_][A-Za-z0-9_]*")
PATH = re.compile(r"[\w.-]*/[\w./-]+|[\w-]+\.(?:rt|antt|md|py|sh|edit|txt)")


def crates_below(crates):
    """For each crate all crates of the repository that it stands on, also those that stand below others."""
    below = {}

    def collect(name):
        if name not in below:
            near = [lower for lower in crates[name] if lower in crates]
            below[name] = set(near).union(*(collect(lower) for lower in near))
        return below[name]

    for name in crates:
        collect(name)
    return below


def edges(crates):
    """For each crate those that it stands on and that stand below no other one of these; the kit's crates all, in their order."""
    below = crates_below(crates)
    kept = {}
    for name, stands_on in crates.items():
        near = [lower for lower in stands_on if lower in crates]
        implied = set().union(*(below[lower] for lower in near)) if near else set()
        kept[name] = sorted(lower for lower in near if lower not in implied)
    return kept


def repository_files(tracked):
    """All files and folders, each also by the ends of its path, and specs without their ending."""
    found = set()
    for path in tracked:
        while path:
            parts = path.split("/")
            for place in range(len(parts)):
                end = "/".join(parts[place:])
                found.update([end, re.sub(r"\.(rt|antt)$", "", end)])
            path = os.path.dirname(path)
    return found


def source_words(tracked):
    """All words of what is neither a document nor a check of documents, and of the names of files."""
    found = set()
    for path in tracked:
        found.update(WORD.findall(path))
        if not path.endswith(".md") and not path.startswith(".ci/document_") and os.path.isfile(path):
            with open(path, encoding="utf-8", errors="replace") as file:
                found.update(WORD.findall(file.read()))
    return found


class Document:
    """A document, cut into what is checked of it."""

    def __init__(self, path):
        self.path = path
        with open(path, encoding="utf-8") as file:
            self.text = file.read()
        self.lines = self.text.splitlines()
        self.prose = re.sub(r"```.*?```", "", self.text, flags=re.S)

    def sentences(self):
        """Those of the text, of each item of a list and of each cell of a table."""
        joined = re.sub(r"\n(?!\n|[|#-]|\d+\.)\s*", " ", self.prose)
        for line in joined.splitlines():
            for cell in line.split(" | ") if line.startswith("|") else [line]:
                yield from re.split(r"(?<=[.?!])\s+", cell.strip("|-# "))

    def section(self, title):
        """The lines of a section that aren't empty, behind its heading."""
        inside, lines = False, []
        for line in self.lines:
            if line.startswith("#"):
                inside = line.strip("# ") == title
            elif inside and line.strip():
                lines.append(line)
        return lines

    def rows(self, title):
        """The cells of the rows of a section's table, without its head."""
        cells = [[cell.strip() for cell in re.split(r"(?<!\\)\|", line)[1:-1]] for line in self.section(title) if line.startswith("|")]
        return cells[2:]

    def crate_rows(self):
        """The rows of the table of crates: a name, and the crates that it stands on."""
        rows = [re.match(r"\| `(\w+)` \|.*\|([^|]*)\|$", line) for line in self.section_below("The crates")]
        return [(row[1], sorted(re.findall(r"`(\w+)`", row[2]))) for row in rows if row]

    def section_below(self, title):
        """The lines of a section and of the smaller ones in it."""
        start = self.lines.index("## " + title)
        ends = [place for place, line in enumerate(self.lines) if place > start and line.startswith("## ")]
        return self.lines[start + 1 : ends[0] if ends else None]

    def write_edges(self, stands_on):
        """Writes into the last column of the table of crates what each stands on."""

        def with_edges(row):
            told = ", ".join(f"`{lower}`" for lower in stands_on.get(row[2], []))
            return f"{row[1]}| {told} |" if told else f"{row[1]}| |"

        text = re.sub(r"^(\| `(\w+)` \|.*)\|[^|\n]*\|$", with_edges, self.text, flags=re.M)
        with open(self.path, "w", encoding="utf-8") as file:
            file.write(text)

    def promise_rows(self):
        """The rows of promises: crate, sentence, clause, wrong bodies. A row without a crate is of the one above it."""
        crate = None
        for line in self.lines:
            cells = [cell.strip() for cell in re.split(r"(?<!\\)\|", line)[1:-1]]
            if len(cells) == 4 and cells[0] not in ("crate", "---"):
                named = re.findall(r"`(\w+)`", cells[0])
                crate = named[0] if named else crate
                yield crate, cells[1], cells[2], cells[3]

    def spans(self):
        return re.findall(r"`([^`\n]+)`", self.prose)

    def paths(self):
        """What stands in code spans and is a path of the repository, without its last slash."""
        for span in self.spans():
            if PATH.fullmatch(span) and not span.startswith(("/", ".", "~")):
                yield span.rstrip("/")

    def words(self):
        """The words of the other code spans."""
        for span in self.spans():
            if not PATH.fullmatch(span):
                yield from WORD.findall(span)

    def links(self):
        for target in re.findall(r"\]\(([^)\s]+)\)", self.prose):
            if "://" not in target:
                path, _, anchor = target.partition("#")
                yield path, anchor

    def anchors(self):
        """The headings, as links to them are spelled."""
        for line in self.prose.splitlines():
            if line.startswith("#"):
                yield re.sub(r"[^\w -]", "", line.strip("# ").lower()).replace(" ", "-")
