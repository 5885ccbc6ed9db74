#!/usr/bin/env python3
"""Which definitions of specs/ a reader must believe, in lines, and which stand at the wrong place.

    python3 tools/believed.py [--check]

A definition must be believed if the contract of a public function, what a type promises in a ghost clause or a top theorem (ROOTS)
cites it, directly or through other definitions. Per crate: its lines, those of the other definitions that contracts of private functions cite, and those of the rest, which
proofs alone cite. Lines are counted as tools/lines.py does. A Lists.antt is not counted: tools/tables.py writes it, and a law holds it
against its formula. --check names each definition that stands at a place where it does not belong, and then exits with 1:

- what must be believed belongs in specs/, but not in a Private.antt
- what only contracts of private functions cite belongs in a Private.antt
- what only proofs cite belongs in proofs/

A name counts as cited where it stands as a word and is defined in the file or imported; a word after a dot is a field, and a name that a
clause, a binder or a function's parameters bind is no citation. A constructor stands for its type.
"""
import pathlib
import re
import sys

import audit
import citations
import lines

# The top theorems, found by name in whatever crate they stand. One of specs/ is a statement; of a law in proofs/ only what it says counts.
ROOTS = {
    "Demand3": "a total is accurate to 0.46 dB",
    "Demand3Sharp": "the narrowest band that the proof gives",
    "CallAccurate": "the same of what C is handed",
    "accepted_text_is_run": "an accepted text's study is the run of its additions, so that demand 3 is said of it and of what is added to it",
    "Readings": "the starred readings",
    "SilenceMeans": "what silence and a mark of emptiness mean for entitlement",
    "EntitlementCalls": "which refusals its C function gives, and that a marked text makes no difference",
    "MergeLaws": "when a merge is refused, what a merged study holds, and that it is the study typed whole",
    "MergedDemand3": "a merged study's total is accurate to 0.46 dB",
    "MergedTexts": "which refusals two texts get, and that they are answered as one text of both",
    "MergedCallAccurate": "demand 3 of what C is handed of two texts",
    "SlowTrains": "which speeds are refused, and that a train below 20 km/h is heard as at 20",
    "SpeedLaws": "when each refusal of a highest speed comes, that every lower speed is safe too, and how far rounding carries the answer",
    "SpeedCalls": "the same of what C is handed of a text, and which refusals it gets",
    "total_rises": "a total never falls where levels rise",
    "cells_rise": "the same over working cells",
    # the formulas are believed by these: contracts state fences and tenths by whole numbers alone, and these say whose they are
    "segment_fences": "each fence of a segment's steps is that of the step's exact value",
    "train_fences": "the same of a train's steps",
    "nearest_exact": "the nearest tenth of a fence is that of the exact value",
    "ground_settled": "an allowed close mark gives ground the louder neighbour or the nearest",
    "total_settled": "the same of a total",
}

MODULE = re.compile(r"Rattle\.(?P<crate>\w+)\.(?P<folder>specs|proofs)\.(?P<module>.+)")
WORD = re.compile(r"[^\s(){};,\"]+")
MEMBER = re.compile(r"^ {2,4}(?:pub )?(\S+) :(?=\s)", re.M)
BINDERS = [
    re.compile(r"[({]\s*([^\s(){}:;=][^(){}:;=]*?)\s+:\s"),  # (a b : A), {a : A}
    re.compile(r"λ\s+([^\s(){}.][^(){}.]*)\."),  # λ a b.
    re.compile(r"\blet\s+(\S+)\s+="),
]
LABEL = re.compile(r"([{;]\s*)[^\s=;{}()]+\s+=(?=\s)")  # of a field in record { a = b }
PRIVATE, TABLE = "Private.antt", "Lists.antt"


class Definition:
    """A definition of an antt file: its place, its text, its constructors, what it binds itself, and what it cites."""

    def __init__(self, source, name, is_type, text):
        self.path, self.name, self.is_type, self.text = source.path, name, is_type, text
        self.crate, self.folder = source.path.parts[1:3]
        members = MEMBER.findall(text) if is_type else []
        self.constructors = members if re.match(r"(?:pub )?data ", text) else []
        self.own = {name, *members}
        self.count = lines.counted(".antt", text)
        self.cited = set()

    def __str__(self):
        return f"{self.path}: {self.name}"


def bound(text):
    return {word for binder in BINDERS for names in binder.findall(text) for word in names.split()}


class Names:
    """What the names of a file stand for: definitions of this tree. Others' names and declared types stand for none."""

    def __init__(self, source, modules):
        self.named = dict(modules.get(source.path, {}))
        self.aliases = {}
        for path, there, here in source.imports:
            module = modules.get(module_file(path))
            if there is None:
                self.aliases[here] = module or {}
            elif module is not None and there in module:
                self.named[here] = module[there]
            elif module is not None and source.path.parts[2] != "proofs":  # there it may be a set of rules
                sys.exit(f"{source.path}: {path} does not define {there}")

    def cited(self, text, hidden):
        """The definitions that a text cites, those names aside that are bound in it."""
        hidden = hidden | bound(text)
        for word in WORD.findall(LABEL.sub(r"\1", text)):
            front, _, back = word.partition(".")
            if not front or front in hidden:
                continue
            found = self.aliases[front].get(back) if back and front in self.aliases else self.named.get(front)
            if found:
                yield found

    def patterns(self, left):
        """The names that a clause's left side binds, and the types whose constructors it cites."""
        words = {word for word in WORD.findall(left) if not word.startswith(".")}
        types = set(self.cited(" ".join(words), set()))
        constructors = {constructor for found in types for constructor in found.constructors}
        kept = {word for word in words if word.rpartition(".")[2] in constructors}
        return words - kept, set(self.cited(" ".join(kept), set()))


def module_file(path):
    match = MODULE.fullmatch(path)
    if match and not match["module"].startswith("declared."):
        return pathlib.Path("crates", match["crate"], match["folder"], *match["module"].split(".")).with_suffix(".antt")
    return None


def pieces(definition):
    """The signature of a definition and its clauses, each with its left side; of a type the whole."""
    if definition.is_type:
        return definition.text, []
    clause = re.compile(r"^\s*" + re.escape(definition.name) + r"(?=\s)", re.M)
    signature, *clauses = clause.split(definition.text[citations.DEFINED.match(definition.text).end() :])
    return signature, [re.split(r"\s=(?=\s)", each, maxsplit=1) for each in clauses]


def signature_cites(definition, names):
    signature, _ = pieces(definition)
    return set(names.cited(signature, definition.own)) - {definition}


def cites(definition, names):
    found = signature_cites(definition, names)
    for left, *right in pieces(definition)[1]:
        hidden, types = names.patterns(left)
        found |= types
        for text in right:
            found |= set(names.cited(text, hidden))
    return found - {definition}


def contracts(source):
    """Each function of a .rt file: whether it is public, its contract, and its parameters."""
    for match in audit.FUNCTION.finditer(source.text):
        contract = audit.CONTRACT.search(match["head"])
        if contract:
            stated = re.sub(r"\b(requires|ensures)\b[^{]*", "", contract[0])
            parameters = set(re.findall(r"(\w+)\s*:", match["head"][: contract.start()]))
            yield bool(match["public"]), stated, parameters


def promises(source):
    """What the types of a .rt file promise: the ghost clauses of their impls and the invariants of their fields."""
    for match in re.finditer(r"^ +ghost \w+(?: =|:) \{(.*)\}[;,]$", source.text, re.M):
        yield match[1]


def reached(found):
    """Those definitions and all that they cite, on and on."""
    whole, rest = set(), list(found)
    while rest:
        definition = rest.pop()
        if definition not in whole:
            whole.add(definition)
            rest += definition.cited
    return whole


class Tree:
    """All definitions, and those that must be believed, that contracts of private functions cite, and that proofs cite."""

    def __init__(self):
        sources = citations.sources()
        self.modules, self.all = {}, []
        for source in sources:
            if source.path.suffix == ".antt":
                self.read(source)
        names = {source.path: Names(source, self.modules) for source in sources}
        for definition in self.all:
            definition.cited = cites(definition, names[definition.path])
        public, private, proofs = set(), set(), set()
        for source in sources:
            if source.path.suffix == ".rt":
                for is_public, stated, parameters in contracts(source):
                    (public if is_public else private).update(names[source.path].cited(stated, parameters))
                for stated in promises(source):
                    public.update(names[source.path].cited(stated, set()))
            elif source.path.parts[2] == "proofs":
                proofs.update(names[source.path].cited(LABEL.sub(r"\1", source.text), set()))
        self.public = reached(public)
        self.believed = reached(public | self.top_theorems(names))
        self.private = reached(private)
        self.proofs = reached(proofs)

    def read(self, source):
        text = source.text.splitlines()
        module = self.modules.setdefault(source.path, {})
        for name, is_type, start, end in citations.definitions(source):
            definition = Definition(source, name, is_type, "\n".join(text[start:end]))
            self.all.append(definition)
            module[name] = definition
            for constructor in definition.constructors:
                module.setdefault(constructor, definition)
        if source.path.parts[2] == "specs" and source.path.name != "Lib.antt":
            known = sum(definition.count for definition in self.all if definition.path == source.path)
            if known != lines.counted(".antt", source.path.read_text()):
                sys.exit(f"{source.path}: some lines belong to no definition that this script reads")

    def top_theorems(self, names):
        found = set()
        for root in ROOTS:
            stated = [definition for definition in self.all if definition.name == root]
            stated = [definition for definition in stated if definition.folder == "specs"] or stated
            if len(stated) != 1:
                sys.exit(f"there are {len(stated)} definitions of {root}, a top theorem")
            law = stated[0].folder == "proofs"
            if law and stated[0].text.startswith(" "):  # what its module is given would not be seen
                sys.exit(f"{root}, a top theorem, stands in a module with premises of its own")
            found |= signature_cites(stated[0], names[stated[0].path]) if law else {stated[0]}
        return found

    def citing(self, definition):
        if definition in self.private:
            return "contracts of private functions cite it, and nothing above them"
        return "only proofs cite it" if definition in self.proofs else "nothing cites it"


def faults(tree):
    for definition in tree.all:
        file = definition.path.name
        if definition in tree.believed:
            if definition.folder == "proofs":
                yield f"{definition}: a top theorem cites it, so it belongs in specs/"
            elif file == PRIVATE:
                whose = "a public contract" if definition in tree.public else "a top theorem"
                yield f"{definition}: {whose} reaches it, so it belongs outside of {PRIVATE}"
        elif definition.folder == "specs" and file != TABLE and (file != PRIVATE or definition not in tree.private):
            yield f"{definition}: {tree.citing(definition)}"


def table(tree):
    rows = {}
    for definition in tree.all:
        if definition.folder == "specs" and definition.path.name != TABLE:
            row = rows.setdefault(definition.crate, [0, 0, 0])
            row[0 if definition in tree.believed else 1 if definition in tree.private else 2] += definition.count
    rows["together"] = [sum(column) for column in zip(*rows.values())]
    print("| Crate | Believed | Private contracts | Proofs alone |")
    print("|---|---|---|---|")
    for crate, row in rows.items():
        print(f"| {crate} | {' | '.join(f'{count:,}' for count in row)} |")


def main():
    tree = Tree()
    table(tree)
    if "--check" in sys.argv[1:]:
        audit.conclude([*faults(tree)], "believed", "definitions out of place")


if __name__ == "__main__":
    main()
