#!/usr/bin/env python3
"""Makes manual pages and completions from the program's own help: bindings/manual.py PROGRAM FOLDER

It writes four files into the folder. man1/road_proof.1 comes from `PROGRAM help` and the statuses of docs/COMMANDS.md,
man3/gogbetiku.3 from the comments of bindings/gogbetiku.h. completions/road_proof is for bash, completions/_road_proof
for zsh. Nobody trusts them."""

import pathlib
import re
import subprocess
import sys
import textwrap
from collections.abc import Iterator

TOP = pathlib.Path(__file__).resolve().parent.parent
VERSION = (TOP / "VERSION").read_text().strip()
FILES = {"ROADS", "GRAPH", "PLACES", "SECRET", "PUB", "PUBKEY", "REPLY", "CHAIN", "TEXT", "SIGNATURE"}
WORDS = {"KIND": "h5 h10", "METHOD": "dij full ldm hyp", "ORDER": "id breadth depth hilbert kd shuffled"}
# a command's words, and its description
Command = tuple[list[str], str]


def commands_of(program: str) -> list[Command]:
    """The commands with their words and descriptions, in the order of the usage text."""
    text = subprocess.run([program, "help"], capture_output=True, text=True, check=True).stdout
    body = text.split("commands:\n", 1)[1]
    found = re.findall(r"^  (\S.*)\n((?:      .*\n?)+)", body, re.M)
    return [(head.split(), " ".join(what.split())) for head, what in found]


def statuses() -> list[tuple[str, str]]:
    """The statuses with their meanings, from the table of docs/COMMANDS.md."""
    text = (TOP / "docs/COMMANDS.md").read_text().split("| status | means |", 1)[1].split("\n\n", 1)[0]
    return [(number, re.sub(r"[`*]", "", what)) for number, what in re.findall(r"^\| (\d+) \| (.+?) \|", text, re.M)]


def plain(text: str) -> str:
    """A text for roff: each sentence begins a line, no line is long, and no line begins like a control line."""
    text = text.replace("\\", "\\e").replace("'", "\\(aq").replace("`", "")
    lines = [part for line in re.split(r"(?<=[.:;]) +", text) for part in textwrap.wrap(line, 76)]
    return "\n".join("\\&" + line if line[:1] == "." else line for line in lines)


def head(name: str, section: int, about: str, title: str) -> str:
    return f".Dd $Mdocdate$\n.Dt {title} {section}\n.Os\n.Sh NAME\n.Nm {name}\n.Nd {about}\n"


def program_page(commands: list[Command]) -> str:
    page = head("road_proof", 1, "shortest routes that prove themselves", "ROAD_PROOF")
    page += ".Sh SYNOPSIS\n" + "".join(f".Nm\n.Cm {words[0]}{arguments(words[1:])}\n" for words, _ in commands)
    page += ".Sh DESCRIPTION\nThe answer goes to standard output, messages go to standard error.\n.Bl -tag -width Ds\n"
    page += "".join(
        f".It Cm {words[0]}{arguments(words[1:])}\n{plain(what[0].upper() + what[1:])}.\n" for words, what in commands
    )
    page += ".El\n.Sh EXIT STATUS\n.Bl -tag -width Ds\n"
    page += "".join(f".It {number}\n{plain(what)}\n" for number, what in statuses()) + ".El\n"
    return page + ".Sh SEE ALSO\ngogbetiku(3)\n"


def arguments(words: list[str]) -> str:
    """The arguments of a command for mdoc. An optional argument has brackets, which mdoc closes at the line's end."""
    return "".join(f" Op Ar {word.strip('[]')}" if word[0] == "[" else f" Ar {word}" for word in words)


def library_page() -> str:
    """The calls of the header, each after its comment."""
    header = (TOP / "bindings/gogbetiku.h").read_text()
    page = head("gogbetiku", 3, "checks routes against the public key of the owner of a map", "GOGBETIKU")
    page += ".Sh LIBRARY\nlibgogbetiku: cc with the words of pkg-config --cflags --libs gogbetiku\n"
    calls = re.findall(r"/\* ([^/]*?) \*/\n(?:GOG_READ_IT )?([a-z][^;{}]*\([^;{}]*\));", header)
    page += ".Sh SYNOPSIS\n.In gogbetiku.h\n" + "".join(prototype(call) for _, call in calls)
    page += ".Sh DESCRIPTION\n" + ".Pp\n".join(
        f"{described(call)}{plain(joined(comment))}\n" for comment, call in calls
    )
    listed = re.search(r"enum gog_code \{(.*?)\};", header, re.S)
    assert listed
    codes = re.findall(r"(GOG_[A-Z_]+) = (\d+),?\s*(?:/\* (.*?) \*/)?", listed[1])
    page += (
        ".Sh RETURN VALUES\nA code.\nThe text of each code names the two numbers of the verdict.\n.Bl -tag -width Ds\n"
    )
    page += "".join(f".It {number} Dv {name}\n{plain(what or 'no number')}\n" for name, number, what in codes) + ".El\n"
    return page + ".Sh SEE ALSO\nroad_proof(1)\n"


def joined(comment: str) -> str:
    return " ".join(re.sub(r"^ \* ?", "", line, flags=re.M).strip() for line in comment.splitlines())


def prototype(call: str) -> str:
    parts = re.match(r"(.*?)(\w+)\((.*)\)", joined(call), re.S)
    assert parts
    words = [" ".join(word.split()) for word in parts[3].split(",")]
    return f".Ft {parts[1].strip()}\n.Fo {parts[2]}\n" + "".join(f'.Fa "{word}"\n' for word in words) + ".Fc\n"


def described(call: str) -> str:
    name = re.search(r"(gog_[a-z_]+)[(]", call)
    assert name
    return f".Fn {name[1]}\n.br\n"


def places_of(words: list[str]) -> Iterator[tuple[int, str | None]]:
    """The arguments of a command that can be completed: the place of each, and its possible words, or None for a
    file."""
    for at, word in enumerate(words[1:], 2):
        bare = word.strip("[]")
        if bare in FILES:
            yield at, None
        elif bare in WORDS:
            yield at, WORDS[bare]


def completion(commands: list[Command]) -> str:
    """The completion for bash: first the commands, then the arguments of each command, place by place."""
    cases: list[str] = []
    for words, _ in commands:
        places = [
            f"            {at}) COMPREPLY=($(compgen {f'-W {known!r}' if known else '-f'} -- \"$word\")) ;;"
            for at, known in places_of(words)
        ]
        if places:
            cases.append("\n".join([f"        {words[0]}) case $COMP_CWORD in", *places, "            esac ;;"]))
    names = " ".join(words[0] for words, _ in commands)
    return "\n".join(
        [
            "# completion of road_proof for bash",
            "_road_proof() {",
            "    local word=${COMP_WORDS[COMP_CWORD]}",
            "    COMPREPLY=()",
            '    if [ "$COMP_CWORD" -eq 1 ]; then',
            f"        COMPREPLY=($(compgen -W '{names} help' -- \"$word\"))",
            "        return",
            "    fi",
            "    case ${COMP_WORDS[1]} in",
            *cases,
            "    esac",
            "}",
            "complete -F _road_proof road_proof",
            "",
        ]
    )


def completion_for_zsh(commands: list[Command]) -> str:
    """The completion for zsh, which shows a sentence beside each command. It counts the words of a line from 1."""
    cases: list[str] = []
    for words, _ in commands:
        places = [
            f"            {at + 1}) {f'compadd {known}' if known else '_files'} ;;" for at, known in places_of(words)
        ]
        if places:
            cases.append("\n".join([f"        {words[0]}) case $CURRENT in", *places, "            esac ;;"]))
    quoted = [
        f"{words[0]}:{what}".replace("\\", "\\\\").replace("'", "'\\''")
        for words, what in [*commands, (["help"], "say all this")]
    ]
    return "\n".join(
        [
            "#compdef road_proof",
            "# completion of road_proof for zsh",
            "_road_proof() {",
            "    if (( CURRENT == 2 )); then",
            "        local -a commands=(",
            *(f"            '{one}'" for one in quoted),
            "        )",
            "        _describe command commands",
            "        return",
            "    fi",
            "    case ${words[2]} in",
            *cases,
            "    esac",
            "}",
            "# on the first call the function is defined now, so run it",
            '_road_proof "$@"',
            "",
        ]
    )


def main(program: str, folder: str) -> None:
    commands = commands_of(program)
    assert len(commands) > 10 and len(statuses()) > 5
    for name, text in (
        ("man1/road_proof.1", program_page(commands)),
        ("man3/gogbetiku.3", library_page()),
        ("completions/road_proof", completion(commands)),
        ("completions/_road_proof", completion_for_zsh(commands)),
    ):
        path = pathlib.Path(folder) / name
        path.parent.mkdir(parents=True, exist_ok=True)
        path.write_text(text)


if __name__ == "__main__":
    if len(sys.argv) != 3:
        print(
            "bindings/manual.py: name the program and the folder for the pages: bindings/manual.py PROGRAM FOLDER",
            file=sys.stderr,
        )
        sys.exit(2)
    main(*sys.argv[1:])
