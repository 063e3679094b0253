"""What the scripts read from crates/*/src/*.rt: the public functions, their comments, and the clauses of their contracts."""
import os
import re

ROOT = os.path.dirname(os.path.dirname(os.path.abspath(__file__)))
CRATES = os.path.join(ROOT, "crates")

HEAD = re.compile(r"^( *)(pub(?:\([a-z]+\))? )?(?:const )?fn (\w+)")
BLOCK = re.compile(r"^(pub(?:\([a-z]+\))? )?(trait|impl)\b(.*)$")
CLAUSE = re.compile(r"^ *(requires|ensures) (?:(\w+) )?\{")


def read(path):
    with open(path, encoding="utf-8") as text:
        return text.read()


def crates_in_order():
    """The crates in the order of crates.txt, each after those that it stands on."""
    below = dict(line.split(":", 1) for line in read(os.path.join(ROOT, "crates.txt")).splitlines() if ":" in line)
    order = []

    def visit(name):
        for other in below[name].split():
            if other in below:
                visit(other)
        if name not in order:
            order.append(name)

    for name in below:
        visit(name)
    return order


class Clause:
    """A clause: `requires` or `ensures`, its name or None, and its text."""

    def __init__(self, kind, name, text):
        self.kind, self.name, self.text = kind, name, text


class Function:
    """A function of a file: its comment as one text, whether it is `pub`, the type or trait that it belongs to, its
    signature without clauses, its clauses, and whether its body is empty."""

    def __init__(self, file, owner, name, public, doc):
        self.file, self.owner, self.name, self.public, self.doc = file, owner, name, public, doc
        self.signature, self.clauses = "", []

    @property
    def path(self):
        return f"{self.owner}::{self.name}" if self.owner else self.name


def is_law(function):
    """Whether a function is a law: it is public, has no parameters and no result, and requires nothing."""
    only_ensures = bool(function.clauses) and all(clause.kind == "ensures" for clause in function.clauses)
    return only_ensures and not function.owner and function.signature == f"pub fn {function.name}()"


class Source:
    """A file of src/: its functions in their order, and the definitions of specs/ that it names, each with its module."""

    def __init__(self, crate, path):
        self.crate, self.path = crate, os.path.relpath(path, os.path.join(CRATES, crate))
        self.text = read(path)
        self.named = dict(definitions_in(self.text))
        self.implemented = list(implemented_in(self.text))
        self.functions = list(functions_in(self))

    def cited(self, function):
        """The definitions of specs/ in the clauses of a function, as pairs of name and module, in their order."""
        return self.cited_in(" ".join(clause.text for clause in function.clauses))

    def cited_in(self, text):
        words = re.findall(r"[^\s(){};,.]+", text)
        return [(word, self.named[word]) for word in dict.fromkeys(words) if word in self.named]


def definitions_in(text):
    """What the `ghost use` lines take from the specs of the repository: pairs of the own name and the module."""
    for module, names in re.findall(r"^ *ghost use (Rattle\.bk\w*\.specs\.[\w.]+)\.\{([^}]*)\};", text, re.M):
        if ".declared." in module:
            continue
        for name in names.split(","):
            name, _, own = name.strip().partition(" as ")
            yield (own or name).strip(), module


def implemented_in(text):
    """The implementations of traits that define something for contracts: the trait, the type, and the definitions, each
    with its text."""
    for head, body in re.findall(r"^impl\b([^\n]*?(?:\n[^{}\n]*)*?)\{\n(.*?)^\}", text, re.M | re.S):
        found = re.search(r"([\w:]+)(?:<[^>]*>)? for ([\w:]+)", head)
        ghosts = dict(re.findall(r"^    ghost (\w+) = \{(.*?)\};", body, re.M | re.S))
        if found and ghosts:
            yield found[1].rsplit("::", 1)[-1], found[2], ghosts


def owner_of(block):
    """The type or the trait of a block, and whether its functions are public by themselves; None for one that implements
    a trait, whose contracts are those of the trait."""
    kind, rest = block[2], re.sub(r"<[^{]*?>(?= |$|\{)", "", block[3]) if block[2] == "impl" else block[3]
    if kind == "impl" and re.search(r"\bfor\b", rest):
        return None, False
    name = re.search(r"\w+", rest)[0]
    return name, kind == "trait"


def functions_in(source):
    """The functions of a file, outside of tests."""
    owner, public, skipped, doc = None, False, False, []
    lines = source.text.split("\n")
    at = 0
    while at < len(lines):
        line = lines[at]
        block, head = BLOCK.match(line), HEAD.match(line)
        if line == "}":
            owner, public, skipped = None, False, False
        if block:
            owner, public = owner_of(block)
            skipped = owner is None and not line.endswith("{}")
            doc = []
        elif head and len(head[1]) == (4 if owner or skipped else 0) and not skipped:
            function = Function(source, owner, head[3], public or head[2] == "pub ", joined(doc))
            at = take_head(function, lines, at, head[1])
            doc = []
            yield function
        elif line.strip().startswith("///"):
            doc.append(line.strip()[3:].strip())
        elif not line.strip().startswith("#["):
            doc = []
        at += 1


def joined(doc):
    """A comment as one line; what is after its first blank line is a paragraph of its own."""
    return re.sub(r" *\n+ *", " ", "\n".join(doc)).strip()


def take_head(function, lines, at, indent):
    """Reads a signature with its clauses, and gives the index of its last line."""
    head, clause = [], None
    while True:
        line = lines[at]
        found = CLAUSE.match(line)
        if found:
            clause = Clause(found[1], found[2], "")
            function.clauses.append(clause)
        if line in (f"{indent}{{", f"{indent}{{}}"):
            break
        if clause:
            clause.text += line[found.end() :] + " " if found else line + " "
        else:
            head.append(line.strip())
        if line.rstrip().endswith(("{", "{}", "};")) and not clause or line.rstrip().endswith(";"):
            break
        at += 1
    function.signature = " ".join(head)
    return at


def sources_of(crate):
    """The files of src/ of a crate, without its tests."""
    found = []
    for folder, folders, names in os.walk(os.path.join(CRATES, crate, "src")):
        folders.sort()
        found += [Source(crate, os.path.join(folder, name)) for name in sorted(names)
                  if name.endswith(".rt") and not re.match(r"tests?\b", name) and "tests" not in folder.split(os.sep)]
    return found


def spec_path(module):
    """The file of a module of specs/, from the folder of crates."""
    _, crate, *rest = module.split(".")
    return os.path.join(crate, *rest) + ".antt"


def check_page(path, text, write, script):
    """Writes a page, or says whether it is out of date. The exit status."""
    name = os.path.relpath(path, ROOT)
    was = read(path) if os.path.exists(path) else ""
    if write:
        with open(path, "w", encoding="utf-8") as page:
            page.write(text)
        return 0
    if was != text:
        print(f"{name} is out of date: {script} --write writes it")
        return 1
    print(f"{name} is up to date")
    return 0
