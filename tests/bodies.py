"""Wrong bodies and controls, as tests/wrong.py and refusals.py try them: where they stand, what they change, and how they are made in a copy of
their crate."""
import glob
import os
import re

TOP = os.path.dirname(os.path.dirname(os.path.abspath(__file__)))
HEAD = re.compile(r"( *)(?:pub(?:\([\w: ]+\))? )?(?:const |unsafe |extern \"C\" )*fn (\w+)")
BLOCK = re.compile(r"(?:pub(?:\(\w+\))? )?(?:unsafe )?(?:impl(?:<.*?>)? (?:(.*) for )?|trait )(\w+)")


class Unfit(Exception):
    """Why a body cannot be tried."""


def text_of(path):
    with open(path, encoding="utf-8") as it:
        return it.read()


def path_of(crate, name):
    """The file of a wrong body: `rt ci` tries those of crates that are cheap to prove, and tests/wrong.py the others."""
    cheap = f"{TOP}/crates/{crate}/must-fail/{name}.edit"
    return cheap if os.path.isfile(cheap) else f"{TOP}/tests/wrong/{crate}/{name}.edit"


def lemma_of(path):
    """The lemma that a control names in the place of a text, and its file in the crate; none where it has a text."""
    return re.search(r"^lemma: (\S+) (\S+)$", text_of(path), re.M)


def pairs_of(path):
    """The changes of a file: of which file of the crate, the old text and the new one."""
    file, old, found = "", None, []
    for line in text_of(path).split("\n"):
        key, _, value = line.partition(":")
        value = value.removeprefix(" ")
        if key == "file":
            file = value.strip()
        elif key == "old":
            old = value
        elif key == "new":
            if not file or not old:
                raise Unfit("a line new: without file: and old:")
            found.append((file, old, value))
            old = None
    if not found:
        raise Unfit("it changes nothing")
    return found


def module_of(file):
    """The path of a source's module in its crate."""
    return [] if file in ("src/lib.rt", "src/main.rt") else file[4:-3].split("/")


def home_of(name, file, text, folder):
    """The module of a type that a source implements: its own, or that of the crate in the folder which declares the type."""
    declares = re.compile(rf"^(?:pub(?:\(\w+\))? )?(?:struct|enum|trait) {name}\b", re.M)
    if declares.search(text):
        return module_of(file)
    others = sorted(glob.glob(f"{folder}/src/**/*.rt", recursive=True))
    return next((module_of(os.path.relpath(it, folder)) for it in others if declares.search(text_of(it))), module_of(file))


def spans_of(file, text, folder):
    """The functions of a source in the folder of a crate: the name of each, as a check tells it, which is by the type's module and has the
    trait's name behind the type's; its first line, attributes included; the line that opens its body; and its last line."""
    lines, impl, found, module = text.split("\n"), "", [], module_of(file)
    for at, line in enumerate(lines):
        block = BLOCK.match(line)
        impl = block[2] + re.sub(r"\W|^Drop$", "", block[1] or "") if block else "" if line == "}" else impl
        module = home_of(block[2], file, text, folder) if block else module_of(file) if line == "}" else module
        begins = HEAD.match(line)
        if begins:
            brace = line if line.endswith("{") else begins[1] + "{"
            opens = next((it for it in range(at, len(lines)) if lines[it] == brace), len(lines))
            ends = next((it for it in range(opens, len(lines)) if lines[it] == begins[1] + "}"), len(lines))
            while at and lines[at - 1].lstrip().startswith("#["):
                at -= 1
            found.append(("::".join([*module, *[impl] * bool(begins[1] and impl), begins[2]]), at, opens, ends))
    return found


def changed(pairs, folder):
    """What these changes make of the files of a crate that stands in a folder; and the functions whose bodies they change, which are
    all that they may change."""
    texts, names = {}, {}
    for file, old, new in pairs:
        if not file.startswith("src/") or not os.path.isfile(f"{folder}/{file}"):
            raise Unfit(f"it changes {file}, which is no file of src/")
        text = texts.setdefault(file, text_of(f"{folder}/{file}"))
        if text.count(old) != 1:
            raise Unfit(f"its old text stands {text.count(old)} times in {file}, and not once: {old}")
        first = text[: text.index(old)].count("\n")
        inside = [it for it in spans_of(file, text, folder) if it[2] < first < it[3]]
        if not inside:
            raise Unfit(f"it changes {file}:{first + 1}, which is in no function's body")
        names[inside[-1][0]] = None
        texts[file] = text.replace(old, new)
    return texts, list(names)


def functions(crate, path):
    """The functions whose bodies a file changes."""
    return changed(pairs_of(path), f"{TOP}/crates/{crate}")[1]


def apply(path, folder):
    """Makes the changes of a file in a copy of its crate."""
    for file, text in changed(pairs_of(path), folder)[0].items():
        with open(f"{folder}/{file}", "w", encoding="utf-8") as it:
            it.write(text)
