#!/usr/bin/env python3
"""Writes docs/definitions.md: the definitions that the headline stands on, in the order in which a reader meets them.

    docs/definitions.py            prints the page
    docs/definitions.py --check    answers 1 where the page that is there is another

It begins with the definition that the clause `run` of the top call cites, and follows the names in each body through the
imports of its file. What the kit defines is left out, and so are the types that are declared in the Rust files, which
have the fields and the variants of the type of the same name.
"""

import argparse
import pathlib
import re
import sys

ROOT = pathlib.Path(__file__).resolve().parent.parent
CRATES = ROOT / "crates"
HEAD = ("ctrsim_cli", "RunEnds", "RunEnds")
WORD = re.compile(r"[^\s(){};,.:λ]+")
START = re.compile(r"^(?:abbrev |unfoldable |record |data |proof )*(?:pub )?(?:abbrev |unfoldable |record )*(?:pub )?(\S+)")


class File:
    """A file of specs: what it imports, and the lines of each definition."""

    def __init__(self, crate, name):
        self.text = (CRATES / crate / "specs" / (name.replace(".", "/") + ".antt")).read_text()
        self.imports, self.aliases, self.bodies = {}, {}, {}
        body = None
        for line in self.text.split("\n"):
            taken = re.match(r"(?:pub )?use Rattle\.(\w+)\.(specs|proofs)\.([\w.]+?)(?:\.\{(.*)\}| as (\w+))$", line)
            if taken:
                crate_, kind, module, names, alias = taken.groups()
                for one in (names or "").split(", "):
                    if one:
                        was, _, new = one.partition(" as ")
                        self.imports[new or was] = (crate_, kind, module, was)
                if alias:
                    self.aliases[alias] = (crate_, kind, module)
            elif line and not line[0].isspace() and not line.startswith(("--", "use ", "pub use ", "pub mod", "mod ", "unfolding")):
                name = START.match(line).group(1)
                if " record " in " " + line or re.match(r"(?:abbrev |unfoldable |pub )*%s :" % re.escape(name), line):
                    self.bodies.setdefault(name, [])
                body = self.bodies.get(name, body)
                if body is not None:
                    body.append(line)
            elif body is not None and line.strip() and not line.lstrip().startswith("--"):
                body.append(line)
            if not line.strip() or line.startswith("--"):
                body = None


def words(lines):
    return dict.fromkeys(word for line in lines for word in WORD.findall(line))


def value_of(crate, name):
    """What a constant of a crate's code is, as the code has it."""
    for path in sorted((CRATES / crate / "src").rglob("*.rt")):
        told = re.search(r"const %s: [^=]+ = ([^;]+);" % name, path.read_text())
        if told:
            return told.group(1)
    raise SystemExit(f"docs/definitions.py: crate {crate} has no constant {name}")


def reached():
    """Each definition once, in the order of the first file that cites it, with its lines; and the constants of the code
    that they cite."""
    files, found, constants, queue = {}, {}, {}, [HEAD]
    while queue:
        crate, module, name = queue.pop(0)
        if (crate, module, name) in found:
            continue
        if (crate, module) not in files:
            files[crate, module] = File(crate, module)
        here = files[crate, module]
        lines = here.bodies.get(name)
        if lines is None:
            continue
        found[crate, module, name] = len(lines)
        for word in words(lines):
            if word in here.bodies:
                queue.append((crate, module, word))
            elif word in here.imports:
                crate_, kind, module_, was = here.imports[word]
                if module_.endswith(".TheConstants"):
                    constants[crate_, was] = value_of(crate_, was)
                elif kind == "specs" and (CRATES / crate_).is_dir() and ".declared." not in "." + module_ and not module_.startswith("declared"):
                    queue.append((crate_, module_, was))
    return found, constants


def page(found, constants):
    per_file = {}
    for (crate, module, name), lines in found.items():
        per_file.setdefault((crate, module), []).append((name, lines))
    order = [line.split(":")[0] for line in (ROOT / "crates.txt").read_text().split("\n") if line and not line.startswith("#")]
    out = ["# The definitions that the headline stands on", ""]
    out.append(f"{len(found)} definitions of {sum(found.values()):,} lines, without their comments, say what `ctrsim run` promises. Who believes them believes")
    out.append("[the theorem](theorem.md); all other definitions tie the code to these, and who is wrong there gets no proof.")
    out.append("`docs/definitions.py` wrote this page; a test compares it. Crates from the top down, of each the files that are")
    out.append("reached, with the names in the order in which they are met.")
    for crate in reversed(order):
        files = [(module, names) for (owner, module), names in per_file.items() if owner == crate]
        if not files:
            continue
        count = sum(len(names) for _, names in files)
        lines = sum(n for _, names in files for _, n in names)
        out += ["", f"## {crate}: {count} definitions, {lines} lines", ""]
        for module, names in files:
            path = f"../crates/{crate}/specs/{module.replace('.', '/')}.antt"
            out.append(f"- [{module}]({path}): " + ", ".join(f"`{name}`" for name, _ in names))
    out += ["", f"## {len(constants)} constants of the code that they cite", ""]
    out.append("`tools/tests/constants.py` has the value of each from its standard or from the pages.")
    out.append("")
    for crate in reversed(order):
        names = [f"`{name}` {value}" for (owner, name), value in sorted(constants.items()) if owner == crate]
        if names:
            out.append(f"- {crate}: " + ", ".join(names))
    return "\n".join(out) + "\n"


def main():
    parser = argparse.ArgumentParser(description=__doc__, formatter_class=argparse.RawDescriptionHelpFormatter)
    parser.add_argument("--check", action="store_true", help="compare the page that is there, and write nothing")
    arguments = parser.parse_args()
    text = page(*reached())
    if not arguments.check:
        sys.stdout.write(text)
        return 0
    if (ROOT / "docs/definitions.md").read_text() == text:
        return 0
    print("docs/definitions.py: docs/definitions.md is not what the sources give", file=sys.stderr)
    return 1


if __name__ == "__main__":
    sys.exit(main())
