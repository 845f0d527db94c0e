"""Where a mistake stands in the sources of its crate: behind its number, so that one program has many.

In the body of a function the wrong body stands in front of the right one, and is taken where `mistake()` is its number. A constant stands
twice, as it is and wrong, and so does each that names it; the functions that name one of them name the wrong one behind the number.
"""

import os
import re
from collections import namedtuple
from itertools import pairwise

from edits import FUNCTION, TOP, brace_of, heads_of, read

# A text that is put into a file of a crate, at this place.
Plant = namedtuple("Plant", "crate path at text")

# A constant, and where it stands in its file.
Constant = namedtuple("Constant", "name path begin end")
CONSTANT = re.compile(r'^(?:pub(?:\([^)]*\))? )?(?:const|static) (\w+):(?:"(?:\\.|[^"\\])*"|[^"])*?;$', flags=re.M | re.S)

# In a text or a character no constant is named.
NO_NAME = r"(?s:\"(?:\\.|[^\"\\])*\"|'(?:\\.|[^'\\])')"


def files_of(folder):
    """The files below a folder, by their paths in it."""
    return sorted(os.path.relpath(f"{at}/{name}", folder) for at, _, names in os.walk(folder) for name in names)


def bodies_of(text):
    """Where the body of each function begins and ends, between its braces."""
    lines, begins = text.split("\n"), [0]
    for line in lines:
        begins.append(begins[-1] + len(line) + 1)
    for head, end in pairwise(heads_of(lines)):
        brace = brace_of(lines, head, end) if FUNCTION.match(lines[head]) else None
        if brace is not None:
            depth = len(lines[head]) - len(lines[head].lstrip())
            last = next(at for at in range(brace, len(lines)) if lines[at].startswith(" " * depth + "}"))
            yield begins[brace + 1] - 1, begins[last]


def marked(number, text):
    """A text between lines that say of which mistake it is."""
    return f"\n// mistake {number}\n{text}\n// end of {number}\n"


def mistake_at(text, line):
    """The number of the mistake whose text stands at this line, or None."""
    marks = re.findall(r"^// (mistake|end of) (\d+)$", "\n".join(text.split("\n")[:line]), flags=re.M)
    return int(marks[-1][1]) if marks and marks[-1][0] == "mistake" else None


class Source:
    """The sources of a crate."""

    def __init__(self, crate):
        folder = f"{TOP}/crates/{crate}"
        self.crate, self.texts = crate, {f"src/{path}": read(f"{folder}/src/{path}") for path in files_of(f"{folder}/src")}
        self.bodies = {path: [*bodies_of(text)] for path, text in self.texts.items()}
        self.constants = [Constant(it[1], path, *it.span()) for path, text in self.texts.items() for it in CONSTANT.finditer(text)]

    def text_of(self, constant):
        return self.texts[constant.path][constant.begin : constant.end]

    def fault(self, edit):
        """What is wrong with the texts of an edit, of which each is to stand in its file once; or nothing."""
        counts = [(path, self.texts.get(path, "").count(old) if old else 0) for path, old, _ in edit.changes]
        return next((f"its text stands in {path} {count} times" for path, count in counts if count != 1), "" if counts else "it changes nothing")

    def plants(self, edit, number):
        """The plants of a mistake, or none where it can't stand behind a number."""
        return self.in_bodies(edit, number) or self.in_constants(edit, number)

    def in_bodies(self, edit, number):
        parts = {}
        for path, old, new in edit.changes:
            same = len(os.path.commonprefix([old, new]))
            begin = self.texts[path].index(old)
            around = [it for it in self.bodies[path] if it[0] <= begin + same and begin + len(old) <= it[1]]
            if not around:
                return []
            parts.setdefault((path, *max(around)), []).append((begin + same, begin + len(old), new[same:]))
        plants = []
        for (path, begin, end), changes in parts.items():
            text = self.texts[path][:end]
            # from the last to the first, so that each is still where it was
            for at, after, new in sorted(changes, reverse=True):
                text = text[:at] + new + text[after:]
            plants.append(self.behind(number, path, begin, text[begin:]))
        return plants

    def behind(self, number, path, at, body):
        """The plant that makes this the body of a function, where the mistake of that number is made."""
        return Plant(self.crate, path, at, marked(number, f"if nbt_mistake::mistake() == {number} {{\nreturn {{{body}}};\n}}"))

    def in_constants(self, edit, number):
        path, old, new = edit.changes[0]
        first = next((it for it in self.constants if it.path == path and old in self.text_of(it)), None)
        if not first or len(edit.changes) > 1:
            return []
        wrong, plants = self.naming(first), []
        for it in wrong:
            text = self.text_of(it).replace(old, new) if it == first else self.text_of(it)
            head, _, value = re.sub(r"^(pub(\([^)]*\))? )?", "pub(crate) ", text).partition("=")
            text = re.sub(rf"\b{it.name}:", f"{it.name}_{number}:", head) + "=" + self.renamed(value, it.path, wrong, number)
            plants.append(Plant(self.crate, it.path, len(self.texts[it.path]), marked(number, text)))
        for path, begin, end in ((path, *it) for path, them in self.bodies.items() for it in them):
            body = self.texts[path][begin:end]
            if self.names(body, path, wrong):
                plants.append(self.behind(number, path, begin, self.renamed(body, path, wrong, number)))
        return plants

    def naming(self, first):
        """A constant, and those that name it or one of these."""
        found = [first]
        for one in found:
            found += [it for it in self.constants if it not in found and self.names(self.text_of(it).partition("=")[2], it.path, [one])]
        return found

    def names(self, text, path, constants):
        return self.renamed(text, path, constants, 0) != text

    def renamed(self, text, path, constants, number):
        """A text of this file, in which the wrong ones of these constants are named in their places."""
        for it in constants:
            modules = re.sub(r"^src/|^src/lib\.rt$|(/mod)?\.rt$", "", it.path).split("/")
            used = re.search(rf"^(pub )?use [^;]*\b{modules[-1]}::[^;]*\b{it.name}\b[^;]*;", self.texts[path], flags=re.M)
            named = rf"(?<!::)\b{it.name}\b|" if used or path == it.path else ""
            wrong = "::".join(part for part in ("crate", *modules, f"{it.name}_{number}") if part)
            pattern = rf"{NO_NAME}|({named}\b(?:\w+::)*{modules[-1]}::{it.name}\b)"
            text = re.sub(pattern, lambda found: wrong if found[1] else found[0], text)
        return text
