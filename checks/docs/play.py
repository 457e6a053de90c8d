#!/usr/bin/env python3
"""Plays the commands in the documents: checks/docs/play.py PROGRAM [DOCUMENT..]

It reads the commands after `$ ` and the outputs below them in README.md, docs/COMMANDS.md, docs/BEFORE_YOU_SIGN.md and
docs/OPERATING.md, or in the named documents (docs/WALKTHROUGH.md and docs/MAPS.md need the library). It types each
document's commands into one shell in a fresh folder, and compares. The text below a command must be its standard output
and standard error together. Its status must be 0, or the number that an `echo $?` right after it shows. The fresh
folder has the files of a clone after its first build (`out`, `crates/road_proof` with `data` and `out`, `tools`,
`bindings`, `web` and the archive of the client). A stand-in for `./build` does nothing, and the built program stands in
for `rt run --` and `rt try --`, since a proof takes too long. Everything else runs as typed.

If a command needs a missing tool, its block and the rest of the document are skipped, with a message. Ends with status
1 if an output or a status differs.
"""
import os
import re
import shutil
import subprocess
import sys
import tempfile
from collections.abc import Iterator

TOP = os.path.dirname(os.path.dirname(os.path.dirname(os.path.abspath(__file__))))
DOCUMENTS = ["README.md", "docs/COMMANDS.md", "docs/BEFORE_YOU_SIGN.md", "docs/OPERATING.md"]
ARCHIVE = "crates/route_check_c/out/libroute_check_c.a"
PROMPT = "$ "
SECONDS = 120
# the shell's own words, and the two programs that this script puts on the path
KNOWN = {
    "cd",
    "echo",
    "export",
    "printf",
    "umask",
    "exit",
    "true",
    "false",
    "road_proof",
    "rt",
    "test",
    "until",
    "do",
    "done",
    "kill",
}
# the programs that a script of the repository needs
NEEDS = {
    "web/gateway.py": ["python3-h11"],
    "$TOOLS/../web/gateway.py": ["python3-h11"],
    "web/many": ["python3-h11", "nginx", "haproxy"],
}
STAND_IN = """#!/bin/sh
# Runs the built program in place of `rt run -- WORDS` and `rt try -- WORDS`. The real rt answers `rt doc`.
case "$1 $2" in "run --"|"try --") shift 2; exec out/road_proof "$@";; "doc ") exec REAL doc;; esac
echo "rt: only run --, try -- and doc are stood in for here" >&2
exit 2
"""


# the number of a command's line, the command, and the lines below it
Command = tuple[int, str, list[str]]


def blocks_of(text: str) -> Iterator[tuple[int, list[str]]]:
    """The indented blocks of a Markdown text, each a list of lines without the indent, with its first line's number."""
    block: list[str] = []
    begins = 0
    for number, line in enumerate(text.split("\n") + ["end"], 1):
        if line.startswith("    "):
            begins = begins or number
            block.append(line[4:])
        elif line == "" and block:
            block.append("")
        elif block:
            yield begins, block
            block, begins = [], 0


def commands_of(path: str) -> list[Command]:
    """The commands of a document: (line number, command, the lines below it)."""
    commands: list[Command] = []
    with open(path, encoding="utf-8") as file:
        text = file.read()
    for begins, block in blocks_of(text):
        if not block[0].startswith(PROMPT):
            continue
        while block and block[-1] == "":
            block.pop()
        for offset, line in enumerate(block):
            if line.startswith(PROMPT):
                commands.append((begins + offset, line[len(PROMPT) :], []))
            else:
                commands[-1][2].append(line)
    return commands


def lacking(command: str) -> str | None:
    """The first missing program of a command."""
    plain = re.sub(r"'[^']*'|\"[^\"]*\"", "", command)
    for part in re.split(r"\||;|&&|\$\(", plain):
        words = [word for word in part.split() if "=" not in word]
        if words and words[0] not in KNOWN and "/" not in words[0] and not shutil.which(words[0]):
            return words[0]
        for need in NEEDS.get(words[0], []) if words else []:
            if not (has_h11() if need == "python3-h11" else shutil.which(need)):
                return need
    return None


def has_h11() -> bool:
    """Whether Debian's Python has the module."""
    return subprocess.run(["/usr/bin/python3", "-c", "import h11"], capture_output=True, check=False).returncode == 0


def script_of(commands: list[Command], results: str) -> str:
    """A shell script that runs the commands, and keeps the output and the status of each."""
    lines = ["exec < /dev/null", "true"]
    for index, (_, command, _) in enumerate(commands):
        lines += [
            f"{{ {command}",
            f"}} > {results}/{index}.out 2>&1",
            f"status=$?; echo $status > {results}/{index}.status; (exit $status)",
        ]
    return "\n".join(lines) + "\n"


def fresh_folder(room: str, program: str) -> tuple[str, str]:
    """Makes a folder with the files of a clone after `rt run`. Returns it and the PATH of its programs."""
    crate = f"{room}/clone/crates/road_proof"
    os.makedirs(f"{crate}/out")
    os.makedirs(f"{room}/bin")
    os.makedirs(f"{room}/results")
    shutil.copytree(f"{TOP}/crates/road_proof/data", f"{crate}/data")
    shutil.copyfile(program, f"{crate}/out/road_proof")
    os.chmod(f"{crate}/out/road_proof", 0o755)
    os.symlink(f"{crate}/out/road_proof", f"{room}/bin/road_proof")
    os.makedirs(f"{room}/clone/out")
    shutil.copy(f"{crate}/out/road_proof", f"{room}/clone/out/road_proof")
    with open(f"{room}/clone/build", "w", encoding="utf-8") as file:
        file.write("#!/bin/sh\n")
    os.chmod(f"{room}/clone/build", 0o755)
    for folder in ("tools", "bindings", "web"):
        shutil.copytree(f"{TOP}/{folder}", f"{room}/clone/{folder}", ignore=shutil.ignore_patterns("__pycache__"))
    if os.path.exists(f"{TOP}/{ARCHIVE}"):
        os.makedirs(os.path.dirname(f"{room}/clone/{ARCHIVE}"))
        shutil.copyfile(f"{TOP}/{ARCHIVE}", f"{room}/clone/{ARCHIVE}")
    with open(f"{room}/bin/rt", "w", encoding="utf-8") as file:
        file.write(STAND_IN.replace("REAL", shutil.which("rt") or "false"))
    os.chmod(f"{room}/bin/rt", 0o755)
    return f"{room}/clone", f"{room}/bin:{os.environ.get('PATH', '/usr/bin:/bin')}"


def read(path: str) -> str:
    with open(path, encoding="utf-8", errors="replace") as file:
        return file.read()


def play(document: str, program: str) -> tuple[int, int]:
    """Plays one document. Returns the number of commands that gave the shown output, and of those that did not."""
    commands = commands_of(f"{TOP}/{document}")
    if not commands:
        print(f"{document}: shows no command")
        return 0, 1
    for number, command, _ in commands:
        tool = lacking(command)
        if tool:
            print(f"{document}:{number}: skipped, this machine has no {tool}")
            return 0, 0
    with tempfile.TemporaryDirectory(prefix="play-") as room:
        folder, path = fresh_folder(room, program)
        results = f"{room}/results"
        environment = dict(os.environ, PATH=path, LC_ALL="C.UTF-8")
        subprocess.run(
            ["bash", "-c", script_of(commands, results)],
            cwd=folder,
            env=environment,
            timeout=SECONDS * len(commands),
            check=False,
        )
        passed = 0
        for index, (number, command, shown) in enumerate(commands):
            if not os.path.exists(f"{results}/{index}.status"):
                print(f"{document}:{number}: the shell had ended before `{command}`")
                return passed, len(commands) - index
            wrote, status = read(f"{results}/{index}.out"), read(f"{results}/{index}.status").strip()
            wanted = "".join(f"{line}\n" for line in shown)
            is_told = index + 1 < len(commands) and commands[index + 1][1] == "echo $?"
            if wrote != wanted:
                print(f"{document}:{number}: `{command}` wrote\n{wrote}but the document shows\n{wanted}", end="")
            elif status != "0" and not is_told:
                print(f"{document}:{number}: `{command}` ended with status {status}, but the document does not say so")
            else:
                passed += 1
        return passed, len(commands) - passed


def main() -> None:
    if len(sys.argv) < 2:
        sys.exit((__doc__ or "").split("\n", 1)[0])
    program = os.path.abspath(sys.argv[1])
    if not os.path.isfile(program):
        sys.exit(f"checks/docs/play.py: there is no program {program}")
    passed = failed = 0
    for document in sys.argv[2:] or DOCUMENTS:
        right, wrong = play(document, program)
        print(f"{document}: {right} commands as shown, {wrong} not")
        passed, failed = passed + right, failed + wrong
    print(f"{passed} passed, {failed} failed")
    sys.exit(1 if failed else 0)


if __name__ == "__main__":
    main()
