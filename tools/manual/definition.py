"""Reads the command line of `bkreplay` from its definition in crates/bk_cli/src: the commands with their words and their
arguments in verb.rt, the arguments in parts.rt, the program in shaped.rt, and the files of help.

Each is a match whose arms have one form. Whatever else occurs there ends the script with a message.
"""
import os
import re
import sys

ROOT = os.path.dirname(os.path.dirname(os.path.dirname(os.path.realpath(__file__))))
SOURCE = "crates/bk_cli/src"
# The files of help.
MODULES = ("help", "more_help", "table_help", "diagnosis_help")


def fail(why):
    print(f"tools/manual/write: {why}", file=sys.stderr)
    sys.exit(2)


def read(path):
    with open(os.path.join(ROOT, path), encoding="utf-8") as file:
        return file.read()


def unquoted(text):
    """The string of a literal in a source, without its quotes."""
    escapes = {"n": "\n", '"': '"', "\\": "\\"}
    return re.sub(r"\\(?:(\n)\s*|(.))", lambda it: "" if it[1] else escapes[it[2]], text)


def texts_of(module):
    """The constants of a file of help, each by its path: a text, or the two texts of a command."""
    source = read(f"{SOURCE}/{module}.rt")
    literal = r'"((?:[^"\\]|\\.)*)"'
    texts = {name: unquoted(text)
             for name, text in re.findall(rf"const (\w+): &str =\s*{literal};", source, re.DOTALL)}
    helps = re.findall(rf"const (\w+): Help<'static> = Help \{{\s*about: {literal},\s*after: {literal},\s*\}};",
                       source, re.DOTALL)
    texts |= {name: {"about": unquoted(about), "after": unquoted(after)} for name, about, after in helps}
    for name in re.findall(r"\bconst (\w+)", source):
        if name not in texts:
            fail(f"{SOURCE}/{module}.rt: the constant {name} is neither a text nor a Help with about and after")
    return {f"{module}::{name}": text for name, text in texts.items()}


def read_texts():
    """Those of all files of help."""
    return {name: text for module in MODULES for name, text in texts_of(module).items()}


class Named(dict):
    """An argument or a command: what is known of it, by the names of the builder's methods."""

    def __init__(self, name, **known):
        super().__init__(known)
        self.name = name


def arms(file, function, value):
    """What a function that is one match gives for each variant: the groups of this pattern. `_` is every other variant."""
    found = re.search(rf"\bfn {function}\b.*?\{{\n +match self \{{\n(.*?)\n        \}}\n    \}}",
                      read(f"{SOURCE}/{file}"), re.DOTALL)
    if not found:
        fail(f"{SOURCE}/{file}: the function {function} is not understood")
    body = re.sub(r"([(\[]) | ?,? ([)\]])", r"\1\2", " ".join(found[1].split()))
    pattern = rf"((?:\w+::\w+ \| )*(?:\w+::\w+|_)) => {value}, "
    rest = re.sub(pattern, "", body + " ").strip()
    if rest:
        fail(f"{SOURCE}/{file}: in {function}: {rest} is not understood")
    return {name.split("::")[-1]: groups for names, *groups in re.findall(pattern, body + " ")
            for name in names.split(" | ")}


def text_of(texts, name):
    return texts[name] if name in texts else fail(f"{SOURCE}: the constant {name} is not there")


def argument(texts, kind, words, help_name, most, number):
    """An argument, as an arm of parts.rt makes it."""
    name, *letter = re.findall(r'"(.*?)"', words)
    arg = Named(name, help=text_of(texts, help_name), action="ArgAction::Set")
    if kind == "flag":
        arg |= {"long": name, "action": "ArgAction::SetTrue"}
    elif kind == "option" and letter:
        arg |= {"long": name, "value_name": letter[0]}
    elif kind == "required":
        arg["required"] = "true"
    elif kind != "valued":
        fail(f"{SOURCE}/parts.rt: Plain::{kind} of {name} is not understood")
    if most:
        arg["value_parser"] = {"range": (1, int(most))}
    elif number:
        arg["value_parser"] = {"type": number}
    return arg


def parts_by_name(texts):
    """The arguments, by the name of each variant."""
    form = r'Plain::(\w+)\(alloc, ((?:".*?", )+)(\w+::\w+)\)(?:\.read_by\((?:up_to\(([\d_]+)\)|value_parser!\((\w+)\))\))?'
    return {name: argument(texts, *groups) for name, groups in arms("parts.rt", "arg", form).items()}


def program_of(texts):
    """What `Shaped::program` of shaped.rt makes: the program without a command."""
    text = read(f"{SOURCE}/shaped.rt")
    named = re.search(r'named\(alloc, "(\w+)", help::(\w+)\)', text)
    version = re.search(r'\.version\("([\d.]+)"\)', text)
    if not named or not version:
        fail(f"{SOURCE}/shaped.rt: the name, the help or the version of the program is not understood")
    about = text_of(texts, f"help::{named[2]}")
    return Named(named[1], about=about["about"], after_help=about["after"], version=version[1], arg=[])


def is_path(arg):
    """Whether the value of an argument is the path of a file, as its help begins to say."""
    return arg.get("help", "").startswith("The path of ")


def words_of(arg):
    """The words that an option takes, where the name of its value lists them, as `all|votes|none`; else nothing."""
    words = arg.get("value_name", "").split("|")
    return words if len(words) > 1 else []


def kind_of(arg):
    """What a completion offers for an argument: `file`, `words` or, for a number or a digest, nothing."""
    text = arg.get("help", "")
    if is_path(arg):
        return "file"
    if words_of(arg):
        return "words"
    if "value_parser" in arg or text.startswith("The digest of "):
        return "none"
    fail(f"the help of the argument {arg.name} begins neither with `The path of` nor with `The digest of`, "
         "it is no number, and the name of its value lists no words")


def is_flag(arg):
    """Whether an option takes no value."""
    return arg.get("action") == "ArgAction::SetTrue"


def limits_of(option):
    """The least and the greatest number that an option takes, nothing of one that takes any."""
    if words_of(option):
        return None
    if not option.get("value_parser") or "value_name" not in option or "help" not in option:
        fail(f"the option {option.name} takes no number, or has no name of its value, or no help")
    return option["value_parser"].get("range")


def changed_on():
    """The day of the last change that CHANGELOG.md has. A page is dated by it, and not by a clock."""
    found = re.search(r"^#+ .*\b(\d{4}-\d\d-\d\d)\b", read("CHANGELOG.md"), re.MULTILINE)
    return found[1] if found else fail("CHANGELOG.md has no heading with a day, as 2026-11-27")


def checked(command):
    """Fails if the man page or a completion lacks something of a command."""
    for part in ("about", "after_help"):
        if not command.get(part):
            fail(f"the command {command.name} has no help ({part})")
    for heading in ("Exit status:", "Example:"):
        if f"\n{heading}\n" not in command["after_help"]:
            fail(f"the help of {command.name} has no `{heading}`")
    for arg in command["arg"]:
        if not is_flag(arg):
            limits_of(arg) if "long" in arg and not is_path(arg) else kind_of(arg)
        elif "long" not in arg or "help" not in arg:
            fail(f"the option {arg.name} has no name or no help")


def read_program():
    """The program as a command: its commands are in `subcommand`."""
    texts = read_texts()
    parts = parts_by_name(texts)
    words, helps = arms("verb.rt", "word", '"(.*?)"'), arms("verb.rt", "help", r"(\w+::\w+)")
    lists = [arms("verb.rt", function, r"&\[(.*?)\]") for function in ("parts", "flags")]
    verbs = re.search(r"\bconst ALL: \[Verb; \d+\] = \[(.*?)\];", read(f"{SOURCE}/verb.rt"), re.DOTALL)
    program = program_of(texts)
    program["subcommand"] = []
    for verb in re.findall(r"Verb::(\w+)", verbs[1] if verbs else fail(f"{SOURCE}/verb.rt has no list ALL")):
        text = text_of(texts, helps[verb][0])
        names = [name for rows in lists for name in re.findall(r"Part::(\w+)", (rows.get(verb) or rows["_"])[0])]
        program["subcommand"].append(Named(words[verb][0], about=text["about"], after_help=text["after"],
                                           arg=[parts[name] for name in names]))
    for command in (program, *program["subcommand"]):
        checked(command)
    return program
