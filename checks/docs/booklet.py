#!/usr/bin/env python3
"""Prints a clause with all definitions that it unfolds to: checks/docs/booklet.py CLAUSE [--list]

    checks/docs/booklet.py Accepts                        what acceptance is (route_client)
    checks/docs/booklet.py AuditsAccepted                 the headline (audit_commands)
    checks/docs/booklet.py route_client::check            the clause of a call
    checks/docs/booklet.py road_search::ball_to.length     one of its clauses, by its name

The clause comes first. Then comes each definition once, after all definitions that it names, by crate and file, with
the public source that its file names. An auditor has to read all of this; the names from the kit are listed at the end.
With `--list` it prints only the names. It reads the sources and proves nothing. No client trusts it.
"""
import signal
import sys

import promises
import specs


def roots_of(name: str) -> tuple[specs.Definition | None, promises.Clause | None]:
    """The definitions that a clause names, and its text if it is the clause of a call."""
    found = specs.called(name)
    if len(found) > 1:
        sys.exit(
            "booklet.py: there are "
            + ", ".join(f"{it.crate}::{it.path.split('/')[-1][:-5]}.{it.name}" for it in found)
            + ": name one"
        )
    if found:
        return found[0], None
    clause = promises.clause_named(name)
    if clause is None:
        sys.exit(
            f"booklet.py: {name} is neither a definition of specs/ nor a call's clause, such as Accepts, route_client::Accepts, route_client::check or road_search::ball_to.length"
        )
    return None, clause


def place_of(it: specs.Definition) -> str:
    return f"{it.crate}, {it.path.split('/', 2)[2]}"


def head_of(it: specs.Definition) -> str:
    """The first comment in the file of a definition, with its public source."""
    if it.is_type:
        return ""
    path = it.path.split("/specs/")[1][:-5].replace("/", ".")
    file = specs.specification(it.crate, path)
    assert file
    return file.source


def show(order: list[specs.Definition], kit: set[str], is_list: bool) -> None:
    path = frame = ""
    for it in order:
        if is_list:
            print(f"{place_of(it)}:{it.line}: {it.name}")
            continue
        if it.path != path:
            print(f"## {place_of(it)}\n")
            if head_of(it):
                print(f"{head_of(it)}\n")
            frame = ""
        if it.frame != frame and it.frame:
            print(f"{it.frame}\n")
        path, frame = it.path, it.frame
        print(f"{it.text}\n")
    if kit and not is_list:
        print("## Words of the kit\n")
        print(", ".join(sorted({name.rpartition(".")[2] for name in kit})))


def main() -> None:
    words = [it for it in sys.argv[1:] if it != "--list"]
    if len(words) != 1:
        sys.exit((__doc__ or "").split("\n\n")[0])
    signal.signal(signal.SIGPIPE, signal.SIG_DFL)
    sys.setrecursionlimit(10_000)
    unfolding = specs.Unfolding()
    root, clause = roots_of(words[0])
    if root:
        found, place, text = unfolding.below([root]), place_of(root), root.text
    else:
        assert clause
        found, place, text = unfolding.below(unfolding.named_in(*clause.reading())), clause.place, clause.text
    rest = [it for it in found if root is None or it.key != root.key]
    print(f"# {words[0]}\n\n{place}: {specs.counts(found)}\n")
    if "--list" not in sys.argv:
        print(f"{text}\n")
    show(specs.reading_order(unfolding, rest), unfolding.kit, "--list" in sys.argv)


if __name__ == "__main__":
    main()
