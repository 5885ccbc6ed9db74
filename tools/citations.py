"""What the .rt and .antt files of the crates bring in and define, and which of it nothing uses. Used by tools/audit.py and believed.py.

A name counts as used where it stands as a word outside comments and imports, a trait also where a method of it does. A definition counts
as cited where its own file uses it outside of it, where a file that imports it uses it, where the attribute of a function names it by its
path, or where a page or a comment names it in backticks: a theorem is the end of its line. What a function's Invariants.antt and
Answers.antt give to its goals is taken by the check.
"""
import pathlib
import re

IMPORT = re.compile(r"^[ \t]*(?:ghost[ ])?use[ ](?P<path>[^{;\n]+?)(?:(?:\.|::)\{(?P<names>[^}]*)\})?(?:[ ]as[ ](?P<alias>\S+?))?;?[ \t]*$", re.M)
# what a function's attribute hands to tactics, as in #[tactic(auto, unfolding(crate::specs::Refusal::unless))]
HANDED = re.compile(r"\b(?:\w+::)+(?P<module>\w+)::(?P<name>[^\s:,()]+)(?=[,)])")
ATTRIBUTE = re.compile(r"#!?\[tactic\([^\]]*\]")
COMMENT = {".antt": re.compile(r"(?:^|(?<=\s))--(?=\s|$).*"), ".rt": re.compile(r"//.*")}
# a definition of antt: its signature at the left margin or in a module, or a type
DEFINED = re.compile(r"^(?P<indent>(?:  )?)(?:pub |abbrev |unfoldable |private )*(?:(?:record|data) (?P<type>[^\s:(){}]+)|(?P<name>[^\s:(){}]+) :(?=\s))")
# a definition that its file gives to a goal of the function
GIVEN = re.compile(r"^(?:pub |abbrev )*(?P<name>[^\s:(){}]+) : (?P<alias>\w+)\.(?P=name)$")
RATTLE_DEFINED = re.compile(r"^[ \t]*(?P<pub>pub |pub\(crate\) )?(?P<extern>extern \"C\" )?(?:fn|struct|enum|const) (?P<name>\w+)", re.M)
# a trait of std is brought in for its methods alone
TRAITS = {"Read": {"read_to_end", "take"}}
KEYWORDS = {"module", "let", "where", "record", "data", "ruleset"}


def words(text):
    """The words of a text. A dot joins no word, since a field and a qualified name have one before them."""
    return set(re.split(r"[\s(){}.,;\"]+", text)) | set(re.findall(r"[\w-]+", text))


def parts(name):
    """The words by which a name is used: ◌≡◌ by ≡."""
    return [part for part in name.split("◌") if part]


def used(name, text, found):
    """As it stands, or by its parts; a part of one sign, as a comma, may stand within a word."""
    return name in found or all(part in found or (len(part) == 1 and not part.isalnum() and part in text) for part in parts(name))


class Source:
    """A file: its text without comments and imports, its imports, and the words that it uses."""

    def __init__(self, path):
        self.path = path
        whole = path.read_text()
        text = COMMENT[path.suffix].sub("", whole)
        self.named = set(re.findall(r"`([^`\s]+)`", "\n".join(COMMENT[path.suffix].findall(whole))))
        self.imports = []  # the module's path, the name there, the name here
        for match in IMPORT.finditer(text):
            self.imports += imported(match)
        for attribute in ATTRIBUTE.findall(text) if path.suffix == ".rt" else []:
            self.imports += ((match["module"], match["name"], match["name"]) for match in HANDED.finditer(attribute))
        self.text = IMPORT.sub(lambda match: "", text)
        self.words = words(self.text)


def imported(match):
    if match["names"] is not None:
        for name in filter(None, (name.strip() for name in match["names"].split(","))):
            there, _, here = name.partition(" as ")
            yield match["path"], there, here or there
    elif match["alias"]:
        yield match["path"], None, match["alias"]
    elif "::" in match["path"]:
        module, _, name = match["path"].rpartition("::")
        yield module, name, name


def sources(root="."):
    paths = (path for folder in ("src", "specs", "proofs") for path in pathlib.Path(root).glob(f"crates/*/{folder}/**/*"))
    return [Source(path) for path in sorted(paths) if path.suffix in COMMENT]


def unused_imports(all_sources):
    for source in all_sources:
        for _, _, here in source.imports:
            if not used(here, source.text, source.words) and not TRAITS.get(here, set()) & source.words:
                yield f"{source.path}: import {here} is not used"


def block_end(lines, start, name, indent):
    """The line after a definition's own: its signature, its clauses, and what is indented below them."""
    own = re.compile(re.escape(indent) + r"(?:" + re.escape(name) + r"|unfolding)(?:\s|$)")
    for number in range(start + 1, len(lines)):
        line = lines[number]
        if line.strip() and not own.match(line) and len(line) - len(line.lstrip()) <= len(indent):
            return number
    return len(lines)


def definitions(source):
    """The definitions of an antt file: name, whether it is a type, its first line and the one after its last."""
    lines = source.text.splitlines()
    fields_end = 0
    for number, line in enumerate(lines):
        match = DEFINED.match(line)
        if number < fields_end or not match or (match["type"] or match["name"]) in KEYWORDS:
            continue
        name = match["type"] or match["name"]
        end = block_end(lines, number, name, match["indent"])
        if match["type"]:
            fields_end = end
        yield name, bool(match["type"]), number, end


def blocks(source):
    """The definitions of an antt file, each with the file's other lines."""
    lines = source.text.splitlines()
    for name, _, start, end in definitions(source):
        yield name, "\n".join(lines[:start] + lines[end:])


def cited_elsewhere(name, module, all_sources):
    """Some file imports the name from that module, or the module by another name, and uses it."""
    for other in all_sources:
        for path, there, here in other.imports:
            if path.split(".")[-1] == module and (there == name and used(here, other.text, other.words)
                                                  or there is None and used(name, other.text, other.words)):
                return True
    return False


def taken(source):
    """The definitions of a function's proof that the check takes: those of goals, and the proof of the whole."""
    if source.path.name == "Proof.antt":
        return {f"{source.path.parent.name}_spec"}
    goals = {here for path, there, here in source.imports if there is None and path.rpartition(".")[2] in ("Goals", "Given")}
    given = (GIVEN.match(line) for line in source.text.splitlines()) if source.path.name in ("Answers.antt", "Invariants.antt") else ()
    return {match["name"] for match in given if match and match["alias"] in goals}


def uncited_definitions(all_sources, pages):
    named = set(re.findall(r"`([^`\s]+)`", pages)).union(*(source.named for source in all_sources))
    for source in all_sources:
        if source.path.suffix == ".rt":
            yield from uncited_in_rattle(source, all_sources, named)
            continue
        for name, rest in blocks(source):
            if not (name in taken(source) or name in named or used(name, rest, words(rest)) or cited_elsewhere(name, source.path.stem, all_sources)):
                yield source.path, name


def uncited_in_rattle(source, all_sources, named):
    for match in RATTLE_DEFINED.finditer(source.text):
        name = match["name"]
        rest = source.text[: match.start("name")] + source.text[match.end("name") :]
        elsewhere = any(name in other.words or any(there == name for _, there, _ in other.imports)
                        for other in all_sources if other is not source and other.path.suffix == ".rt")
        if not (match["extern"] or name == "main" or name in named or name in words(rest) or elsewhere):
            yield source.path, name
