"""The repository's crates, the functions of their files, and copies in which functions are stand-ins.

A stand-in is a function whose body is `unreachable!()` and whose proof is one hole. Its contract stands, and that is all that its
callers see of it, so they are checked as ever, and nothing that it calls is.
"""
import os
import re
import shutil

TOKEN = re.compile(
    r"[{}]|\bimpl\b|\bfn\s+(?P<fn>\w+)|\bmod\s+(?P<mod>\w+)\s*\{|\btrait\s+(?P<trait>\w+)|\b(?:struct|enum)\s+(?P<type>\w+)"
)
CLAUSE = re.compile(r"\[[^\[\]]*\]|\b(?:requires|ensures|ghost|decreases)\b[^{;]*\{|[{;]")
QUOTED = re.compile(r"//[^\n]*|b?\"(?:\\.|[^\"\\])*\"|b?'(?:\\.[^']*|[^'\\\n])'", re.S)
HOLE = """-- A stand-in.
use Rattle.{crate}.proofs.{path}.Statement.{{statement}}

pub {name}_spec : {{M : Type 1}} → statement M
{name}_spec 𝓤 𝓛 𝓜 𝓡 wired = ?
"""


def uses(root):
    """What each crate of the repository stands on, as crates.txt has it."""
    found = {}
    with open(f"{root}/crates.txt", encoding="utf-8") as file:
        for line in file:
            name, colon, below = line.partition("#")[0].partition(":")
            if colon:
                found[name.split()[0]] = below.split()
    return found


def below(crate, all_uses):
    """The repository's crates below this one, each after those that it uses."""
    found = []
    for name in all_uses[crate]:
        if name in all_uses:
            found += [it for it in [*below(name, all_uses), name] if it not in found]
    return found


def behind_braces(text, start):
    """The place behind the block that begins at this brace."""
    depth, at = 1, start + 1
    while depth:
        depth += {"{": 1, "}": -1}.get(text[at], 0)
        at += 1
    return at


def behind_parameters(text, start):
    """The place behind a function's list of parameters."""
    at = text.index("(", start)
    depth = 0
    while True:
        depth += {"(": 1, "[": 1, ")": -1, "]": -1}.get(text[at], 0)
        at += 1
        if not depth:
            return at


def body_of(text, start):
    """Where a function's body begins, behind its parameters, its result and its clauses, and whether it has one."""
    at = behind_parameters(text, start)
    while True:
        found = CLAUSE.search(text, at)
        if found.group() == ";":
            return found.end(), False
        if found.group() == "{":
            return found.start(), True
        at = found.end() if found.group()[0] == "[" else behind_braces(text, found.end() - 1)


class Impl:
    """An `impl`: its type, the trait that it is of, the type's arguments where the `impl` has no parameters, and the place of its brace."""

    def __init__(self, text, start):
        self.brace = text.index("{", start)
        head, parameters = text[start : self.brace].strip(), ""
        if head.startswith("<"):
            depth = 0
            for at, sign in enumerate(head):
                depth += (sign == "<") - (sign == ">" and head[at - 1] != "-")
                if not depth:
                    parameters, head = head[: at + 1], head[at + 1 :].strip()
                    break
        of, _, kind = re.split(r"\bwhere\b", head)[0].rpartition(" for ")
        found = re.match(r"&?(?:'\w+ )?(?:mut )?([\w:]+)(?:<(.*)>)?", kind.strip())
        self.type = found[1].split("::")[-1]
        self.trait = re.match(r"[\w:]*", of.strip())[0].split("::")[-1]
        given = [it.strip() for it in (found[2] or "").split(",")]
        self.arguments = "" if parameters else ",".join(it for it in given if not it.startswith("'"))

    def name(self):
        """As the prover names it, in the names of its functions."""
        return self.type + self.trait + (f"+{self.arguments}" if self.arguments else "")

    def is_plain(self):
        return not self.trait and not self.arguments


class Function:
    """A function with a body: its name, what stands around it, and where its body begins and ends."""

    def __init__(self, name, around, start, end):
        self.name, self.start, self.end = name, start, end
        self.modules = [it[1] for it in around if it[0] == "mod"]
        self.impl = next((it[1] for it in around if it[0] == "impl"), None)
        self.is_of_trait = ("trait",) in around


class Source:
    """A file of a crate: its types, and its functions."""

    def __init__(self, path, module):
        with open(path, encoding="utf-8") as file:
            self.text = file.read()
        self.path, self.module = path, module
        self.types, self.functions = [], []
        self.scan(QUOTED.sub(lambda found: re.sub(r"[^\n]", " ", found.group()), self.text))

    def scan(self, text):
        around, at = [], 0
        while found := TOKEN.search(text, at):
            at = found.end()
            if found["fn"]:
                at, has_body = body_of(text, at)
                if has_body:
                    if ("fn",) not in around:
                        self.functions.append(Function(found["fn"], around, at, behind_braces(text, at)))
                    around.append(("fn",))
                    at += 1
            elif found.group() == "impl":
                around.append(("impl", Impl(text, at)))
                at = around[-1][1].brace + 1
            elif found["mod"]:
                around.append(("mod", found["mod"]))
            elif found["trait"]:
                around.append(("trait",))
                at = text.index("{", at) + 1
            elif found["type"]:
                self.types.append(found["type"])
            elif found.group() == "{":
                around.append(("block",))
            elif around:
                around.pop()


def sources_of(folder):
    """The files of a crate's `src`, each with its module."""
    found = []
    for base, _, files in os.walk(folder):
        for name in sorted(files):
            if name.endswith(".rt"):
                module = os.path.relpath(f"{base}/{name}", folder)[:-3].split("/")
                if module[-1] in ("lib", "main", "mod"):
                    module.pop()
                found.append(Source(f"{base}/{name}", module))
    return found


def names_of(source, function, homes):
    """The names under which a function's proof stands. A plain method stands with its type, and others with their `impl`."""
    inner = source.module + function.modules
    if not function.impl:
        return [*inner, function.name]
    home = homes.get(function.impl.type, inner) if function.impl.is_plain() else inner
    return [*home, function.impl.name(), function.name]


def homes_of(sources):
    """The module of each type."""
    return {name: source.module for source in sources for name in source.types}


def write_hole(crate, place, names):
    """Puts one hole in the place of all that stands of a function's proof."""
    os.makedirs(place, exist_ok=True)
    for name in os.listdir(place):
        if os.path.isfile(f"{place}/{name}"):
            os.remove(f"{place}/{name}")
    with open(f"{place}/Proof.antt", "w", encoding="utf-8") as file:
        file.write(HOLE.format(crate=crate, path=".".join(names), name=names[-1]))


def stand_in(crate, folder, kept=None):
    """Makes stand-ins of a crate's free functions and plain methods, and counts them. With names kept those stay as they are, and
    so does what is in a cycle of calls."""
    sources = sources_of(f"{folder}/src")
    homes, proofs, count = homes_of(sources), f"{folder}/proofs", 0
    os.makedirs(proofs, exist_ok=True)
    if kept is None:
        for name in os.listdir(proofs):
            if os.path.isdir(f"{proofs}/{name}"):
                shutil.rmtree(f"{proofs}/{name}")
    for source in sources:
        text = source.text
        for it in reversed(source.functions):
            names = names_of(source, it, homes)
            is_plain = not it.is_of_trait and (not it.impl or it.impl.is_plain())
            stays = kept is not None and ("::".join(names) in kept or is_in_cycle(text, it))
            if is_plain and not stays:
                write_hole(crate, f"{proofs}/{'/'.join(names)}", names)
                text = text[: it.start] + "{ unreachable!() }" + text[it.end :]
                count += 1
        with open(source.path, "w", encoding="utf-8") as file:
            file.write(text if kept is not None else re.sub(r"(?m)^\s*#\[cycle\(\w+\)\]\n", "", text))
    return count


def is_in_cycle(text, function):
    """Whether a line `#[cycle(..)]` stands before a function, behind the end of the one before it."""
    head = text.rfind(f"fn {function.name}", 0, function.start)
    return "#[cycle(" in text[max(text.rfind("}\n", 0, head), 0) : head]


def copy_with_stand_ins(root, crate, copy, kept=None):
    """Copies a crate over stand-ins of all below, with `bench/from_source`; with names kept its other functions are stand-ins, too."""
    all_uses = uses(root)
    os.makedirs(f"{copy}/crates", exist_ok=True)
    shutil.copy(f"{root}/crates.txt", f"{copy}/crates.txt")
    shutil.copytree(f"{root}/bench/from_source", f"{copy}/bench/from_source", dirs_exist_ok=True)
    counts = {}
    for name in [*below(crate, all_uses), crate]:
        folder = f"{copy}/crates/{name}"
        shutil.rmtree(folder, ignore_errors=True)
        shutil.copytree(f"{root}/crates/{name}", folder, ignore=shutil.ignore_patterns("out", "must-fail"))
        if name != crate or kept is not None:
            counts[name] = stand_in(name, folder, kept if name == crate else None)
    return counts
