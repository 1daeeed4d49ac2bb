#!/usr/bin/env python3
"""Writes docs/sideways.1 and the completions docs/sideways.bash and docs/_sideways from the texts that the program prints for `--help`.

    bench/pages.py [--check] [--program PATH]

PATH is the built program, by default crates/sideways/out/sideways. With --check it writes nothing, and ends with 1 where a page is not what
it would write."""
import argparse, re, subprocess, sys
from pathlib import Path

TOP = Path(__file__).resolve().parents[1]
OPTION = re.compile(r"^ +(?:(-\w))?(?:, )?(--[\w-]+)?(?: ?<([\w.=]+)>)?(?:\.\.\.)?(?:  +(\S.*))?$")
VALUES = re.compile(r" *\[possible values: ([^\]]*)\]")
FILES = ("--table", "--script", "--history", "--dictionary", "--where", "--from-logs", "--log")


class Help:
    """What one `--help` says: what the command is for, how it is called, its commands, arguments, options, notes and examples."""

    def __init__(self, program, command):
        self.command = command
        text = subprocess.run([program] + command + ["--help"], capture_output=True, text=True, check=True).stdout
        parts = re.split(r"\n\n(?=[A-Z][a-z]+:)", text.rstrip("\n"))
        self.about = parts[0].strip()
        sections, self.notes = {}, []
        for part in parts[1:]:
            name, text = part.split(":", 1)
            text, *notes = text.split("\n\n")
            sections[name] = text
            self.notes += [" ".join(note.split()) for note in notes]
        self.usage = sections["Usage"].strip()
        self.commands = self.pairs(sections.get("Commands", ""))
        self.arguments = self.pairs(sections.get("Arguments", ""))
        self.options = self.read_options(sections.get("Options", ""))
        self.examples = [line.strip() for line in sections.get("Examples", "").splitlines() if line.strip()]

    @staticmethod
    def lines(section):
        """The entries of a section, each with the lines that go on with it."""
        entries = []
        for line in section.splitlines():
            if not line.strip():
                continue
            if re.match(r" {10,}", line) and not re.match(r" +-", line) and entries:
                entries[-1] += ("  " if "  " not in entries[-1].strip() else " ") + line.strip()
            else:
                entries.append(line)
        return entries

    def pairs(self, section):
        return [re.split(r"  +", line.strip(), maxsplit=1) for line in self.lines(section)]

    def read_options(self, section):
        found = []
        for line in self.lines(section):
            short, long, value, what = OPTION.match(line).groups()
            found.append({"short": short, "long": long, "value": value, "what": what or ""})
        return found


def words_of(option):
    return [word for word in (option["short"], option["long"]) if word]


def choices_of(option):
    found = VALUES.search(option["what"])
    return [value.strip() for value in found.group(1).split(",")] if found else []


# The manual

def roff(text):
    text = text.replace("\\", "\\e").replace("-", "\\-")
    return re.sub(r"^([.'])", r"\\&\1", text)


def roff_options(options):
    out = []
    for option in options:
        words = ", ".join("\\fB%s\\fR" % roff(word) for word in words_of(option))
        out += [".TP", words + (" \\fI%s\\fR" % option["value"] if option["value"] else ""), roff(option["what"])]
    return out


def roff_examples(examples):
    out = [".PP", ".EX"]
    return out + [roff(line) for line in examples] + [".EE"]


def manual(helps, version):
    top = helps[0]
    out = ['.TH SIDEWAYS 1 "" "%s"' % version, ".SH NAME", "sideways \\- " + roff(top.about), ".SH SYNOPSIS"]
    for one in helps[1:]:
        out += [".B " + roff(one.usage), ".br"]
    out += [".SH DESCRIPTION", roff(top.about) + "."]
    for one in helps[1:]:
        out += [".SH " + " ".join(one.command).upper(), roff(one.about) + "."]
        for name, what in one.arguments:
            out += [".TP", "\\fI%s\\fR" % roff(name.strip("<>[].")), roff(what)]
        out += roff_options(one.options)
        for note in one.notes:
            out += [".PP", roff(note)]
        out += roff_examples(one.examples)
    out += [".SH EXIT STATUS", "0: every call was answered, the history is legal, or an order was found. 1: it is not legal, or there is none, and nothing else ends so.",
            "2: the command line, the table, the script, a log or a history was refused, or a file could not be read.",
            "3: a call, the output, the history file or memory failed, or a search was given up.",
            ".SH SEE ALSO", "docs/FORMATS.md has tables, scripts, replies and flags; docs/HISTORIES.md the file of a history."]
    return "\n".join(out) + "\n"


# Completions

def bash(helps):
    out = ["# Completions of sideways for bash: source this file, or put it where bash\\-completion looks.".replace("\\", ""), "_sideways() {",
           '    local word=${COMP_WORDS[COMP_CWORD]} before=${COMP_WORDS[COMP_CWORD-1]}', "    COMPREPLY=()",
           '    if [ "$COMP_CWORD" -eq 1 ]; then',
           '        COMPREPLY=($(compgen -W "%s" -- "$word"))' % " ".join(first_words(helps[0])), "        return", "    fi",
           "    case ${COMP_WORDS[1]}:$before in"]
    for one in helps[1:]:
        for option in one.options:
            choices = choices_of(option)
            if choices:
                out.append('    %s:%s) COMPREPLY=($(compgen -W "%s" -- "$word")); return ;;' % (one.command[0], option["long"], " ".join(choices)))
    out += ["    *:%s) COMPREPLY=($(compgen -f -- \"$word\")); return ;;" % " | *:".join(FILES), "    esac", "    case ${COMP_WORDS[1]} in"]
    for one in helps[1:]:
        words = [word for option in one.options for word in words_of(option)]
        files = ' $(compgen -f -- "$word")' if any(name in ("<FILE>", "<LOG>...") for name, _ in one.arguments) else ""
        out.append('    %s) COMPREPLY=($(compgen -W "%s" -- "$word")%s) ;;' % (one.command[0], " ".join(words), files))
    out += ["    esac", "}", "complete -o filenames -F _sideways sideways"]
    return "\n".join(out) + "\n"


def first_words(top):
    return [name for name, _ in top.commands] + [word for option in top.options for word in words_of(option)]


def quoted(text):
    """A text within single quotes, in which a specification of zsh stands."""
    return re.sub(r"([\[\]:])", r"\\\1", VALUES.sub("", text)).replace("'", "'\\''")


def zsh_option(option):
    value = ""
    if option["value"]:
        choices = choices_of(option)
        value = ":%s:%s" % (option["value"], "(%s)" % " ".join(choices) if choices else "_files" if option["long"] in FILES else "")
    words = words_of(option)
    many = "*" if option["short"] == "-e" else ""
    return "'%s%s[%s]%s'" % (many, words[-1], quoted(option["what"]), value)


def zsh(helps):
    out = ["#compdef sideways", "# Completions of sideways for zsh: put this file into a folder of $fpath.", "_sideways() {", "    local -a commands",
           "    commands=("]
    out += ["        '%s:%s'" % (name, quoted(what)) for name, what in helps[0].commands]
    out += ["    )", "    if (( CURRENT == 2 )); then", "        _describe command commands", "        return", "    fi", "    local command=$words[2]",
            "    shift words", "    (( CURRENT-- ))", "    case $command in"]
    for one in helps[1:]:
        specs = [zsh_option(option) for option in one.options]
        specs += ["'1:%s:%s'" % (name.strip("<>[]."), "_files" if name in ("<FILE>", "<LOG>...") else "") for name, _ in one.arguments]
        out += ["    %s)" % one.command[0], "        _arguments \\"] + ["            %s \\" % spec for spec in specs[:-1]]
        out += ["            %s" % specs[-1], "        ;;"]
    out += ["    esac", "}", '_sideways "$@"']
    return "\n".join(out) + "\n"


def main():
    words = argparse.ArgumentParser(description=__doc__, formatter_class=argparse.RawDescriptionHelpFormatter)
    words.add_argument("--check", action="store_true")
    words.add_argument("--program", default=str(TOP / "crates/sideways/out/sideways"))
    given = words.parse_args()
    top = Help(given.program, [])
    helps = [top] + [Help(given.program, [name]) for name, _ in top.commands if name != "help"]
    version = subprocess.run([given.program, "-V"], capture_output=True, text=True, check=True).stdout.strip()
    pages = {"sideways.1": manual(helps, version), "sideways.bash": bash(helps), "_sideways": zsh(helps)}
    stale = []
    for name, text in pages.items():
        page = TOP / "docs" / name
        if given.check:
            if not page.exists() or page.read_text() != text:
                stale.append(name)
        else:
            page.write_text(text)
    for name in stale:
        print("docs/%s is not what bench/pages.py writes" % name)
    return 1 if stale else 0


if __name__ == "__main__":
    sys.exit(main())
