#!/usr/bin/env python3
"""Tests the installed library: bindings/play_install.py PROGRAM

It installs into a staged DESTDIR, and into a folder without DESTDIR. The last line must say what the loader needs. It
builds the example in C with pkg-config alone, static and shared, in a folder outside the checkout. The example, the
installed module for Python, and the code of docs/LIBRARY.md in C and Python must check a reply. It checks the manual
pages with mandoc, and completes a command in bash and in zsh. It builds wheels without a network, with the library and
without, and installs each into a fresh venv. It checks the types with mypy, and compiles the header as C++. At last it
undoes the installation, and no file may be left. A part that needs a missing program is `skipped`. Ends with status 1
if anything differs. Nobody trusts this file."""

import os
import pathlib
import re
import shutil
import subprocess
import sys
import tempfile
from typing import Any

HERE = pathlib.Path(__file__).resolve().parent
TOP = HERE.parent
faults: list[str] = []


def same(what: str, seen: object, wanted: object) -> None:
    if seen != wanted:
        faults.append(f"{what}: {seen!r}, and not {wanted!r}")


def run(*words: object, **options: Any) -> tuple[int, str, str]:
    done = subprocess.run([*map(str, words)], capture_output=True, text=True, check=False, **options)
    return done.returncode, done.stdout, done.stderr


def lacks(name: str, what: str) -> bool:
    if shutil.which(name) is None:
        print(f"skipped: {what}, since this machine has no {name}")
        return True
    return False


def made_reply(program: pathlib.Path, folder: pathlib.Path) -> None:
    """A key and a reply to the query from 1 to 3, in a folder."""
    shutil.copy(TOP / "crates/road_proof/data/m1.roads", folder)
    (folder / "secret.hex").write_text("00" * 48)
    words = {
        "owner.key": "key secret.hex h5",
        "m1.pub": "publish m1.roads dij 3 id 0 2 0 0 0",
        "m1.reply": "prove m1.pub 1 3",
    }
    for name, command in words.items():
        with open(folder / name, "wb") as file:
            subprocess.run([program, *command.split()], cwd=folder, stdout=file, check=True)


ASK = ["owner.key", "m1.reply", "1", "3", "3"]
ACCEPTED = (0, "accepted 9: 1 2 3\n", "1 0 0\n2 10 0\n3 20 0\n")


def by_pkg_config(stage: pathlib.Path, folder: pathlib.Path) -> None:
    """Tests that the example builds outside the checkout, static and shared, and that the shared one needs soname 0."""
    if lacks("pkg-config", "programs by pkg-config"):
        return
    prefix = stage / "opt/gog"
    env = {**os.environ, "PKG_CONFIG_PATH": str(prefix / "lib/pkgconfig"), "PKG_CONFIG_SYSROOT_DIR": str(stage)}
    shutil.copy(HERE / "example.c", folder)
    ways: tuple[tuple[str, list[str], list[str]], ...] = (("shared", [], []), ("static", ["--static"], ["-static"]))
    for name, options, link in ways:
        status, words, said = run("pkg-config", *options, "--cflags", "--libs", "gogbetiku", env=env)
        same(f"pkg-config, {name}", (status, said), (0, ""))
        built = run("cc", "-std=c99", "-Wall", "-Werror", "example.c", *words.split(), *link, "-o", name, cwd=folder)
        same(f"cc, {name}", built, (0, "", ""))
        same(
            f"the example, {name}",
            run(f"./{name}", *ASK, cwd=folder, env={"LD_LIBRARY_PATH": str(prefix / "lib")}),
            ACCEPTED,
        )
    same("the version", run("pkg-config", "--modversion", "gogbetiku", env=env)[1], (TOP / "VERSION").read_text())
    same("the soname", "[libgogbetiku.so.0]" in run("readelf", "-d", "shared", cwd=folder)[1], True)


def by_python(stage: pathlib.Path, folder: pathlib.Path) -> None:
    """Tests that the installed module finds the installed library on the loader's path."""
    shutil.copy(HERE / "example.py", folder)
    env = {
        "PYTHONPATH": str(stage / "opt/gog/lib/python3/dist-packages"),
        "LD_LIBRARY_PATH": str(stage / "opt/gog/lib"),
    }
    same("the example in Python", run(sys.executable, "example.py", *ASK, cwd=folder, env=env), ACCEPTED)


def shown(stage: pathlib.Path, folder: pathlib.Path) -> None:
    """Tests the code that docs/LIBRARY.md shows in C and in Python."""
    text = (TOP / "docs/LIBRARY.md").read_text()
    c, python = (re.findall(rf"^```{name}\n(.*?)^```", text, re.M | re.S)[0] for name in ("c", "python"))
    (folder / "check.c").write_text(c)
    (folder / "shown.py").write_text(python)
    prefix = stage / "opt/gog"
    built = run(
        "cc",
        "-Wall",
        "-Wextra",
        "-Werror",
        "-I",
        prefix / "include",
        "check.c",
        prefix / "lib/libgogbetiku.a",
        "-o",
        "check",
        cwd=folder,
    )
    same("what LIBRARY shows in C", built, (0, "", ""))
    same("what it prints", run("./check", cwd=folder), (0, "1 at 0, 0\n2 at 10, 0\n3 at 20, 0\n", ""))
    empty = folder / "empty"
    empty.mkdir()
    status, said, why = run(folder / "check", cwd=empty)
    same("where no file is there", (status, said, why.count("\n"), "owner.key" in why), (2, "", 1, True))
    shutil.copy(folder / "m1.reply", empty)
    (empty / "owner.key").write_text("no key\n")
    status, said, why = run(folder / "check", cwd=empty)
    same("where the key is none", (status, said, why), (2, "", "owner.key: no public key\n"))
    (empty / "owner.key").write_text("00" * 56)
    same("where another signed", run(folder / "check", cwd=empty)[0], 1)
    env = {"PYTHONPATH": str(prefix / "lib/python3/dist-packages"), "LD_LIBRARY_PATH": str(prefix / "lib")}
    same(
        "what LIBRARY shows in Python",
        run(sys.executable, "shown.py", cwd=folder, env=env),
        (0, "[(1, 0, 0), (2, 10, 0), (3, 20, 0)]\n", ""),
    )
    same("the floor", "3" in (folder / "owner.floor").read_text(), True)


def pages(stage: pathlib.Path) -> None:
    manual = stage / "opt/gog/share/man"
    if not lacks("mandoc", "the manual pages"):
        for page in ("man1/road_proof.1", "man3/gogbetiku.3"):
            same(f"mandoc {page}", run("mandoc", "-Tlint", manual / page), (0, "", ""))
    script = f'source {stage}/opt/gog/share/bash-completion/completions/road_proof; COMP_WORDS=(road_proof "$@"); COMP_CWORD=$#; _road_proof; echo ${{COMPREPLY[@]}}'
    for typed, wanted in (("ch", "check check-reach"), ("publish m1.roads l", "ldm"), ("key secret.hex h", "h5 h10")):
        same(f"completion of {typed}", run("bash", "-c", script, "bash", *typed.split())[1], wanted + "\n")
    if lacks("zsh", "the completion for zsh"):
        return
    script = f"""_describe() {{ print -r -- ${{(P)2}} }}; compadd() {{ print -r -- $@ }}; _files() {{ print -r -- files }}
        words=(road_proof "$@"); CURRENT=${{#words}}; source {stage}/opt/gog/share/zsh/site-functions/_road_proof"""
    for typed, wanted in (
        ("publish m1.roads l", "dij full ldm hyp"),
        ("key secret.hex h", "h5 h10"),
        ("check k", "files"),
        ("help x", ""),
    ):
        same(
            f"zsh's completion of {typed}",
            run("zsh", "-f", "-c", script, "zsh", *typed.split()),
            (0, wanted + "\n" if wanted else "", ""),
        )
    status, said, why = run("zsh", "-f", "-c", script, "zsh", "ch")
    same(
        "zsh's commands",
        (status, why, "check:" in said, "check-reach:" in said, "help:" in said),
        (0, "", True, True, True),
    )


def told_of_the_loader(folder: pathlib.Path, program: pathlib.Path) -> None:
    """Tests that the last line of an installation says what the loader needs, here for a folder where the loader does
    not look."""
    prefix = folder / "prefix"
    env = {name: text for name, text in os.environ.items() if name not in ("DESTDIR", "LD_LIBRARY_PATH")}
    status, said, why = run(HERE / "install", prefix, env={**env, "PROGRAM": str(program)})
    same(
        "bindings/install without DESTDIR",
        (status, why, said.count("\n"), "LD_LIBRARY_PATH" in said, f"-Wl,-rpath,{prefix}/lib" in said),
        (0, "", 1, True, True),
    )
    # follow the printed advice word by word
    rpath = re.findall(r"link with (\S+),", said)[0]
    words = ["cc", f"-I{prefix}/include", HERE / "example.c", f"-L{prefix}/lib", "-lgogbetiku", rpath, "-o", "by_path"]
    same("a program with the run path", run(*words, cwd=folder), (0, "", ""))
    same("what it says", run("./by_path", *ASK, cwd=folder, env={}), ACCEPTED)
    same("its undoing", run(HERE / "install", prefix, "--undo", env=env), (0, "", ""))


def wheels(folder: pathlib.Path, library: pathlib.Path) -> None:
    """Tests that a wheel with the library needs nothing else in a fresh venv, and that a wheel without it says what to
    install."""
    python = "/usr/bin/python3"
    if run(python, "-c", "import setuptools, wheel, pip, venv, ensurepip")[0] != 0:
        print(
            "skipped: the wheels, since this machine has no python3-pip, python3-setuptools, python3-wheel or python3-venv"
        )
        return
    version = (TOP / "VERSION").read_text().strip()
    machine = os.uname().machine
    wanted: tuple[tuple[list[pathlib.Path], str], ...] = (([library], f"linux_{machine}"), ([], "any"))
    for words, tag in wanted:
        made = folder / f"wheel-{tag}"
        built = run(HERE / "wheel", made, *words)
        same(f"the wheel for {tag}", (built[0], built[1]), (0, ""))
        same("its name", [one.name for one in made.glob("*")], [f"gogbetiku-{version}-py3-none-{tag}.whl"])
        run(HERE / "wheel", made / "again", *words)
        same(
            "made twice",
            *((at / f"gogbetiku-{version}-py3-none-{tag}.whl").read_bytes() for at in (made / "again", made)),
        )
    shutil.copy(HERE / "example.py", folder)
    for tag in (f"linux_{machine}", "any"):
        venv = folder / f"venv-{tag}"
        same("a venv", run(python, "-m", "venv", venv)[0], 0)
        quiet = ["-q", "--no-index", "--disable-pip-version-check"]
        same(
            "its installation",
            run(
                venv / "bin/pip",
                "install",
                *quiet,
                *(folder / f"wheel-{tag}").glob("*.whl"),
                env={"PATH": "/usr/bin:/bin"},
            )[0],
            0,
        )
        about = run(venv / "bin/pip", "show", "--disable-pip-version-check", "gogbetiku")[1]
        seen = run(venv / "bin/python", "example.py", *ASK, cwd=folder, env={})
        if tag == "any":
            last = (seen[2].strip().splitlines() or [""])[-1]
            same(
                "the example over the wheel without",
                (seen[0], "libgogbetiku0" in last, "wheel for this platform" in last),
                (1, True, True),
            )
            same("what it asks for", "libgogbetiku0" in about, True)
        else:
            same("the example over the wheel", seen, ACCEPTED)
            same("the least glibc", bool(re.search(r"Summary: .*for glibc 2\.\d+ and up", about)), True)


def types(folder: pathlib.Path) -> None:
    """Checks the module's types, and a caller's use of them."""
    mypy = "/usr/bin/mypy" if os.path.exists("/usr/bin/mypy") else "mypy"
    if lacks(mypy, "the types of the module for Python"):
        return
    same("mypy", run(mypy, "--strict", "--cache-dir", folder / "mypy", HERE / "python/gogbetiku")[0], 0)
    (folder / "caller.py").write_text("from gogbetiku import Client\nClient(b'').check_route(b'', 1, 3)\n")
    status, said, _ = run(
        mypy,
        "--strict",
        "--cache-dir",
        folder / "mypy",
        "caller.py",
        cwd=folder,
        env={**os.environ, "MYPYPATH": str(HERE / "python")},
    )
    same(
        "a call without the least version",
        (status, "least" in said or "Too few" in said or "Missing positional" in said),
        (1, True),
    )


def header(folder: pathlib.Path) -> None:
    """Tests that the header compiles as C++, and that an unread result gives a warning."""
    (folder / "unread.c").write_text(
        "#include <gogbetiku.h>\nvoid f(struct gog_verdict *v) { gog_check_route(0, 0, 0, 0, 0, 0, 1, 3, 0, 0, 0, 0, v); }\n"
    )
    status, _, said = run("cc", "-Werror", "-I", HERE, "-c", "unread.c", cwd=folder)
    same("an unread result", (status != 0, "unused" in said), (True, True))
    if not lacks("c++", "the header as C++"):
        shutil.copy(folder / "unread.c", folder / "unread.cc")
        status, _, said = run("c++", "-std=c++17", "-Wall", "-Werror", "-I", HERE, "-c", "unread.cc", cwd=folder)
        same("an unread result in C++", (status != 0, "nodiscard" in said), (True, True))
        (folder / "read.cc").write_text(
            "#include <gogbetiku.h>\nint f(const gog_verdict *v) { return gog_accepted(v); }\n"
        )
        same(
            "the header as C++",
            run("c++", "-std=c++17", "-Wall", "-Werror", "-I", HERE, "-c", "read.cc", cwd=folder)[0],
            0,
        )


def main(program: str) -> int:
    with tempfile.TemporaryDirectory() as name:
        folder, stage = pathlib.Path(name) / "outside", pathlib.Path(name) / "stage"
        folder.mkdir()
        env = {**os.environ, "DESTDIR": str(stage), "PROGRAM": str(pathlib.Path(program).resolve())}
        installed = run(HERE / "install", "/opt/gog", env=env)
        same(
            "bindings/install",
            (installed[0], installed[2], installed[1].count("\n"), "ldconfig" in installed[1]),
            (0, "", 1, True),
        )
        made_reply(stage / "opt/gog/bin/road_proof", folder)
        by_pkg_config(stage, folder)
        by_python(stage, folder)
        shown(stage, folder)
        pages(stage)
        told_of_the_loader(folder, stage / "opt/gog/bin/road_proof")
        wheels(folder, stage / "opt/gog/lib/libgogbetiku.so.0")
        types(folder)
        header(folder)
        same("its undoing", run(HERE / "install", "/opt/gog", "--undo", env=env), (0, "", ""))
        same("what is left", [str(path) for path in stage.rglob("*") if not path.is_dir()], [])
    for fault in faults:
        print(fault)
    print(f"installed: {len(faults)} differ" if faults else "installed: programs outside the checkout check replies")
    return 1 if faults else 0


if __name__ == "__main__":
    if len(sys.argv) != 2:
        print("bindings/play_install.py: name the program: bindings/play_install.py PROGRAM", file=sys.stderr)
        sys.exit(2)
    sys.exit(main(sys.argv[1]))
