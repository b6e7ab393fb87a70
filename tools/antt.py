"""Reads the tree: the declarations of specs/ and proofs/, what each names, and what the contracts of the code name.

A declaration is found by its place: (crate, folder, module, name), where the folder is `specs` or `proofs` and the module is its
path below that folder with dots. What a text names is read off its words and the `use` lines of its file; the kit's own names are
left out.
"""
import pathlib
import re

SIGNATURE = re.compile(r"((?:(?:unfoldable|abbrev|pub) )*)(?:(record|data|ruleset) (\S+)|(\S+)(?= :(?: |$)|$))")
USE = re.compile(r"^[ \t]*(?:unfoldable )?(?:pub )?use ([^\s{;]+?)(?:\.\{([^}]*)\})?(?: as (\S+?))?[ \t]*(?:\n|$)", re.M)
PUBLIC = re.compile(r'^(?:    )?pub (?:extern "C" )?fn .*?(?=^(?:    )?\{)', re.S | re.M)
GHOST = re.compile(r"ghost use ([^\s{;]+?)(?:\.\{([^}]*)\})?(?: as ([^\s;]+))?;")


def bare(line):
    """A line of antt without its comment."""
    return re.sub(r"(^|\s)--(\s.*)?$", "", line)


def words(text):
    found = set()
    for line in text.split("\n"):
        for word in re.findall(r"[^\s(){}\[\],;]+", bare(line)):
            found.add(word.strip("`").rstrip(".") or word)
    return found


def brought(names):
    """The names in the braces of a `use` line: what each is called here, and there."""
    out = {}
    for one in (names or "").split(","):
        there, _, here = one.strip().partition(" as ")
        if there:
            out[here or there] = there
    return out


def place(path):
    """The crate, folder and module of a path; None for the kit's."""
    found = re.match(r"Rattle\.(\w+)\.(specs|proofs)(?:\.(.*))?$", path)
    return found and (found[1], found[2], found[3] or "")


class Uses:
    """What the names of a file stand for."""

    def __init__(self, lines):
        self.names, self.modules = {}, {}
        for path, names, other in lines:
            at = place(path)
            if not at:
                continue
            if names:
                self.names |= {here: (*at, there) for here, there in brought(names).items()}
            else:
                self.modules[other or path.split(".")[-1]] = at

    def named(self, text):
        """The places that a text names through these uses."""
        seen, out = words(text), set()
        for here, key in self.names.items():
            parts = [part for part in here.split("◌") if part]
            if here in seen or any(word.startswith(here + ".") for word in seen) or ("◌" in here and parts and seen >= set(parts)):
                out.add(key)
        for word in seen:
            head, _, tail = word.partition(".")
            if tail and head in self.modules:
                crate, folder, module = self.modules[head]
                *inner, name = tail.split(".")
                out.add((crate, folder, ".".join([module, *inner]).strip("."), name))
        return out


class Declaration:
    """`head` is its first lines up to its clauses, `around` the `module _` lines that it stands in."""

    def __init__(self, module, marks, kind, name, number):
        self.module, self.kind, self.name, self.number = module, kind, name, number
        self.public = "pub" in marks
        self.lines, self.around, self.makes = [], "", []

    @property
    def key(self):
        return (*self.module.key, self.name)

    @property
    def text(self):
        return "\n".join(self.lines)

    @property
    def head(self):
        if self.kind:
            return self.text
        indent = len(self.lines[0]) - len(self.lines[0].lstrip())
        out = self.lines[:1]
        for line in self.lines[1:]:
            if len(line) - len(line.lstrip()) <= indent:
                break
            out.append(line)
        return "\n".join(out)


class Module:
    def __init__(self, path, key):
        self.path, self.key = path, key
        self.crate, self.folder, self.name = key
        text = path.read_text()
        self.comment = " ".join(line[3:] for line in text.split("\n\n")[0].split("\n") if line.startswith("-- "))
        self.uses = Uses(USE.findall(text))
        self.declarations = []
        self.parse(USE.sub(lambda m: "\n" * m[0].count("\n"), text).split("\n"))

    def parse(self, lines):
        blocks, open_block, now = [], None, None
        for number, line in enumerate(lines, 1):
            said = bare(line)
            indent = len(said) - len(said.lstrip())
            said = said.strip()
            if open_block:
                open_block[1].append(said)
            elif not said or re.match(r"(pub )?mod |infix", said):
                continue
            elif said.startswith("module _"):
                while blocks and indent <= blocks[-1][0]:
                    blocks.pop()
                open_block, now = (indent, [said]), None
            if open_block:
                if said.endswith("where"):
                    inner = indent if said == "where" else open_block[0]
                    blocks.append((open_block[0], "\n".join(open_block[1]), inner + 2))
                    open_block = None
                continue
            while blocks and indent <= blocks[-1][0]:
                blocks.pop()
                now = None
            level = blocks[-1][2] if blocks else 0
            found = SIGNATURE.match(said) if indent == level and not said.startswith("unfolding ") else None
            if found and (found[2] or re.match(r" :( |$)", said[found.end():]) or (said == found[0] and number < len(lines) and re.match(r"\s+: ", lines[number]))):
                now = Declaration(self, found[1].split(), found[2], found[3] or found[4], number)
                now.around = "\n".join(block[1] for block in blocks)
                self.declarations.append(now)
            if now is None:
                raise SystemExit(f"{self.path}:{number}: not understood: {line}")
            now.lines.append(line)
            made = now.kind and indent == level + 2 and re.match(r"(?:pub )?(?:constructor )?([^:({]+?)(?: :|$)", said)
            if made:
                now.makes += made[1].split()


class Tree:
    def __init__(self, root):
        self.root = pathlib.Path(root)
        self.modules, self.index, self.code, self.cache = {}, {}, {}, {}
        for path in sorted(self.root.glob("crates/*/*/**/*.antt")):
            crate, folder, *rest = path.relative_to(self.root / "crates").parts
            if folder in ("specs", "proofs"):
                key = (crate, folder, ".".join(rest)[: -len(".antt")])
                self.modules[key] = Module(path, key)
        for module in self.modules.values():
            for one in module.declarations:
                self.index[one.key] = one
                if one.kind == "data":
                    for made in one.makes:
                        self.index.setdefault((*module.key, made), one)
        for path in sorted(self.root.glob("crates/*/src/**/*.rt")):
            self.code[path] = path.read_text()

    def crate_of(self, path):
        return path.relative_to(self.root / "crates").parts[0]

    def named(self, module, text):
        """The declarations that a text of a module names."""
        seen = words(text)
        own = {d.key for d in module.declarations
            if d.name in seen or any(w.startswith(d.name + ".") for w in seen) or set(d.makes if d.kind == "data" else ()) & seen
            or ("◌" in d.name and seen >= {part for part in d.name.split("◌") if part})}
        return {self.index[key] for key in own | module.uses.named(text) if key in self.index}

    def refers(self, one):
        if one not in self.cache:
            self.cache[one] = self.named(one.module, one.text + "\n" + one.around) - {one}
        return self.cache[one]

    def states(self, one):
        """The declarations that its statement names."""
        return self.named(one.module, one.head + "\n" + one.around) - {one}

    def contracts(self, crate):
        """The declarations that the contracts of a crate's public functions name."""
        out = set()
        for path, text in self.code.items():
            if self.crate_of(path) == crate:
                heads = PUBLIC.findall(re.sub(r"//.*", "", text))
                out |= {self.index[key] for key in Uses(GHOST.findall(text)).named("\n".join(heads)) if key in self.index}
        return out

    def reached(self, roots):
        seen, todo = set(), list(roots)
        while todo:
            one = todo.pop()
            if one not in seen:
                seen.add(one)
                todo += self.refers(one)
        return seen
