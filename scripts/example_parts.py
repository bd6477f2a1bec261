"""Of a file of examples the part that some of them need: these, what they name of the file, and what both import."""
import re

WORD = re.compile(r"[^\s(){},;.\[\]:λ]+")
IMPORT = re.compile(r"use ([\w.]+?)(?:\.\{(.*)\})?(?: as \w+)?$")
BLOCK = re.compile(r"(?:pub )?(?:record|data|module)\b")
BEFORE_A_NAME = {"pub", "abbrev", "opaque", "record", "data", "module"}
NO_NAME = {"unfolding", "}", ")", "})"}


def words_of(text):
    return set(WORD.findall(text))


def declared(paragraph):
    """The names that a paragraph declares, with the fields of a record and what stands in a module."""
    lines = [it for it in paragraph.split("\n") if not it.startswith(" ") or BLOCK.match(paragraph) and re.match(r"  \S", it)]
    named = [[word for word in it.split() if word not in BEFORE_A_NAME][:1] for it in lines]
    return {word for words in named for word in words} - NO_NAME


class Source:
    """The imports of a file, and its paragraphs without their comments. One that is indented belongs to the one before it."""

    def __init__(self, text):
        self.imports, self.paragraphs = [], []
        for lines in (it.split("\n") for it in re.split(r"\n(?:[ \t]*\n)+", text.rstrip("\n"))):
            self.imports += [it for it in lines if it.startswith("use ")]
            rest = "\n".join(it for it in lines if not it.startswith(("--", "use ")))
            if rest.startswith(" ") and self.paragraphs:
                self.paragraphs[-1] += f"\n\n{rest}"
            elif rest:
                self.paragraphs.append(rest)

    def keep(self, names):
        """Keeps the paragraphs that these names need."""
        names_of = {at: declared(it) for at, it in enumerate(self.paragraphs)}
        kept, wanted = set(), set(names)
        while more := {at for at in names_of if at not in kept and names_of[at] & wanted}:
            kept |= more
            wanted |= set().union(*(words_of(self.paragraphs[at]) for at in more))
        self.paragraphs = [self.paragraphs[at] for at in sorted(kept)]

    def cut(self, is_cut):
        """Of the modules for which this holds keeps the items that the paragraphs name; tells which items of which modules these are."""
        words, kept, cut = words_of("\n".join(self.paragraphs)), [], {}
        for line in self.imports:
            module, items = IMPORT.match(line).groups()
            if is_cut(module) and items is not None:
                # an operator is written without its places
                named = [it for it in items.split(", ") if "◌" in it or it.split(" as ")[-1] in words]
                line = line.replace(items, ", ".join(named)) if named else None
                items = ", ".join(named)
            if is_cut(module) and line:
                cut.setdefault(module, set()).update(it.split(" as ")[0] for it in (items or "").split(", "))
            kept += [line] if line else []
        self.imports = kept
        return cut

    def text(self):
        return "\n\n".join(["\n".join(self.imports), *self.paragraphs]) + "\n"
