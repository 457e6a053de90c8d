#!/usr/bin/env python3
"""Tests the readers of definitions over made-up crates and over the repository: checks/docs/unfolded.py

Over three made-up crates, it compares the names in each definition with lists written by hand, although words are
bound, hidden and renamed. In the booklets of `Accepts` and `AuditsAccepted`, each definition must occur once, as in its
file, after all definitions that it names. None may be missing, even if only a field's name hid a word, and the counts
must be right. For `promises.py --whole`, a changed definition must change the hash of exactly the clauses that unfold
to it. It plants faults for heads.py. Ends with status 1 if anything differs.
"""
import os
import re
import subprocess
import sys
import tempfile
from collections.abc import Iterable

import heads
import promises
import specs

HERE = os.path.dirname(os.path.abspath(__file__))
MADE = {
    "crates.txt": "low: sha2\nmiddle: low\nhigh: low middle\n",
    "crates/low/src/lib.rt": "pub use shape::{Shape, Side};\n",
    "crates/low/src/shape.rt": """ghost use Rattle.low.specs.Base.{twice};

/// A side.
pub enum Side {
    Left(u32),
    Right,
}

/// A shape; its sides.
#[derive(Debug)]
pub struct Shape {
    pub sides: [Side; 4],
    ghost weight: { twice },
}

/// A store.
pub trait Store {
    /// What it has.
    ghost content: { Self → ℕ };

    fn get(&self) -> u32
        ensures got { twice result ≡ 4 };
}
""",
    "crates/low/specs/Base.antt": """-- Numbers.
-- Source: a book.
use Rattle.std.specs.Prelude.{ℕ, ◌+◌, ◌≡◌}

-- ---- a heading that belongs to none

-- double, of course
abbrev pub twice : ℕ → ℕ
twice n = n + n

-- named by nobody
abbrev pub alone : ℕ
alone = 7

infixl 10 ◌>>=◌
abbrev pub ◌>>=◌ : ℕ → (ℕ → ℕ) → ℕ
n >>= f = f n

pub data Colour : Type 0 where
  Red : Colour
  Green : (depth : ℕ) → twice depth ≡ depth → Colour

after : (n : ℕ) →
    ℕ
after n = twice n
""",
    "crates/middle/src/lib.rt": "",
    "crates/middle/specs/Deep/Part.antt": """-- Parts.
use Rattle.low.specs.Base as base
use Rattle.low.specs.Base.{◌>>=◌, twice as double, alone, Red}
use Rattle.low.specs.declared.shape.Side.TheVariants as sides
use Rattle.low.specs.declared.shape.Shape.{Shape}
use Rattle.low.specs.declared.shape.Store.{Ghosts}

-- a record whose field hides a definition behind it
pub record Holds (alone : ℕ) : Type 0 where
  pub first : alone ≡ 1
  pub red : Red ≡ Red
  pub double : ℕ
  pub last : double ≡ 2

abbrev pub by_alias : sides.Side → ℕ
by_alias sides.Right = base.alone
by_alias (sides.Left alone) = alone

abbrev pub in_order : ℕ → ℕ
in_order n = do
  alone ← n
  alone

abbrev pub made : Shape → ℕ
made s = over (record { alone = 1; other = λ double. double }) s.alone

abbrev pub over : {D : Type 0} → Ghosts D → ℕ
over x = 1 -- twice, and alone

module _ (alone : ℕ → ℕ) where
  -- within a block
  abbrev pub framed : ℕ → ℕ
  framed n = alone (double n)
""",
    "crates/high/src/lib.rt": """ghost use Rattle.middle.specs.Deep.Part.{Holds, framed};
ghost use Rattle.std.specs.Prelude.{◌≡◌};

/// Twice.
pub fn one(n: u32, framed: u32) -> u32
    requires { framed ≡ 1 }
    ensures holds { Holds result }
{
    n
}

/// Once.
pub fn other(n: u32) -> u32
    ensures { framed n result
        ≡ 2 }
{
    n
}
""",
    "crates/high/specs/Top.antt": """-- Tops.
use Rattle.middle.specs.Deep.Part.{in_order, made}

abbrev pub top : Type 0
top = in_order 1 ≡ made
""",
}
# the definitions that each one names, written by hand
NAMED: dict[str, list[str]] = {
    "low::twice": [],
    "low::Colour": ["twice"],
    "low::after": ["twice"],
    "middle::Holds": ["Colour"],
    "middle::by_alias": ["Side", "alone"],
    "middle::in_order": ["◌>>=◌"],
    "middle::made": ["Shape", "over"],
    "middle::over": ["Store"],
    "middle::framed": ["twice"],
    "high::top": ["in_order", "made"],
}
TOP_BELOW = ["◌>>=◌", "in_order", "twice", "Side", "Shape", "Store", "over", "made", "top"]
faults: list[str] = []


def holds(what: str, is_so: bool, told: str = "") -> None:
    if not is_so:
        faults.append(f"{what}: {told}")


def forget() -> None:
    """Forgets the files read so far."""
    specs.specification.cache_clear()
    specs.source.cache_clear()
    specs.types_of.cache_clear()


def at_made(room: str) -> None:
    """From here on, reads the made-up crates."""
    for name, text in MADE.items():
        os.makedirs(os.path.dirname(f"{room}/{name}"), exist_ok=True)
        with open(f"{room}/{name}", "w", encoding="utf-8") as file:
            file.write(text)
    specs.TOP = promises.TOP = room
    forget()


def of_made_crates() -> None:
    unfolding = specs.Unfolding()
    for name, wanted in NAMED.items():
        named = sorted(it.name for it in unfolding.named(specs.called(name)[0]))
        holds(f"{name} names", named == sorted(wanted), f"{named}, and not {wanted}")
    holds(
        "words of the kit",
        any(it.endswith(".ℕ") for it in unfolding.kit) and not any("low" in it for it in unfolding.kit),
        str(unfolding.kit),
    )
    top = specs.called("top")
    found = specs.reading_order(unfolding, unfolding.below(top))
    holds("top unfolds to", sorted(it.name for it in found) == sorted(TOP_BELOW), str([it.name for it in found]))
    by_name = {it.name: it for it in found}
    holds(
        "a trait's ghosts alone",
        "ghost content" in by_name["Store"].text and "fn get" not in by_name["Store"].text,
        by_name["Store"].text,
    )
    holds(
        "a type, whole",
        by_name["Shape"].text.startswith("/// A shape") and by_name["Shape"].text.endswith("},\n}"),
        by_name["Shape"].text,
    )
    holds(
        "a comment of its own",
        by_name["twice"].text.startswith("-- double, of course\nabbrev") and len(by_name["twice"].code()) == 2,
        by_name["twice"].text,
    )
    holds("an operator with its fixity", by_name["◌>>=◌"].text.startswith("infixl 10 ◌>>=◌\n"), by_name["◌>>=◌"].text)
    base = specs.specification("low", "Base")
    holds("the source of its file", base is not None and base.source == "Numbers. Source: a book.", "")
    holds(
        "a block's head",
        specs.called("framed")[0].frame == "module _ (alone : ℕ → ℕ) where" and specs.called("framed")[0].line == 32,
        str(specs.called("framed")[0].line),
    )


def of_heads() -> None:
    """Tests files of lemmas with right and with wrong beginnings."""
    lemma, body = "-- What holds.\nuse A.{b}\n\nlaw : b\nlaw = c\n", "\nlaw : b\nlaw = c\n"
    told = list(
        heads.faults_of(
            [
                ("Good.antt", lemma),
                ("Two.antt", "-- What else\n-- holds.\n" + body),
                ("Lib.antt", "mod Good\npub mod Two\n"),
                ("f/Answers.antt", body),
                ("None.antt", body),
                ("Cut.antt", "-- what holds\n" + body),
                ("Bare.antt", "-- ----\n" + body),
            ]
        )
    )
    wanted = [f"{name}.antt: it does not begin with a line that says what it shows" for name in ("None", "Cut", "Bare")]
    holds("heads of files of lemmas", told == wanted, str(told))


def sums() -> dict[str, list[str]]:
    unfolding = specs.Unfolding()
    return {
        f"{it.call}.{it.name}": [one.text for one in unfolding.below(unfolding.named_in(*it.reading()))]
        for it in promises.whole_clauses("high")
    }


def of_clauses(room: str) -> None:
    before = sums()
    holds("the clauses of high", sorted(before) == ["one.holds", "one.requires", "other.ensures"], str(sorted(before)))
    holds("a parameter hides what is imported", before["one.requires"] == [], str(before["one.requires"]))
    holds(
        "a clause of several lines",
        getattr(promises.clause_named("high::other"), "text", None) == "ensures { framed n result\n        ≡ 2 }",
        "",
    )
    with open(f"{room}/crates/low/specs/Base.antt", "a", encoding="utf-8") as file:
        file.write("\nabbrev pub fresh : ℕ\nfresh = 1\n")
    at = f"{room}/crates/middle/specs/Deep/Part.antt"
    changed = specs.read(at).replace("framed n = alone (double n)", "framed n = alone n")
    with open(at, "w", encoding="utf-8") as file:
        file.write(changed)
    forget()
    after = sums()
    holds(
        "a changed definition changes what unfolds to it alone",
        [it for it in after if after[it] != before[it]] == ["other.ensures"],
        str(after),
    )


def file_of(it: specs.Definition) -> specs.Specification:
    """The file of a definition of specs/."""
    file = specs.specification(it.crate, it.path.split("/specs/")[1][:-5].replace("/", "."))
    assert file
    return file


def left_out(unfolding: specs.Unfolding, found: Iterable[specs.Definition]) -> list[str]:
    """The words that name a definition outside the given ones and are not a field's name. Bound words count too."""
    found = list(found)
    keys = {it.key for it in found}
    left: list[str] = []
    for it in found:
        if not it.is_type:
            file = file_of(it)
            code = "\n".join(it.code())
            left += [
                below.name
                for below in unfolding.named_in(file, code, set())
                if below.key not in keys and not re.search(rf"^\s+pub {re.escape(below.name)} :", code, re.M)
            ]
    return left


def of_booklet(name: str) -> str:
    """Tests the printed booklet of a clause of these crates."""
    ran = subprocess.run([sys.executable, f"{HERE}/booklet.py", name], capture_output=True, text=True, check=False)
    listed = subprocess.run(
        [sys.executable, f"{HERE}/booklet.py", name, "--list"], capture_output=True, text=True, check=False
    )
    holds(f"{name}: it ends", ran.returncode == listed.returncode == 0, ran.stderr + listed.stderr)
    unfolding = specs.Unfolding()
    root = specs.called(name)[0]
    found = {f"{it.crate}, {it.path.split('/', 2)[2]}:{it.line}: {it.name}": it for it in unfolding.below([root])}
    lines = listed.stdout.splitlines()[4:]
    order = [found[line] for line in lines if line in found]
    holds(
        f"{name}: each once, and none is missing",
        len(order) == len(lines) and len({it.key for it in [root, *order]}) == len(found) == len(order) + 1,
        f"{len(order)} of {len(found)}",
    )
    told: set[tuple[str, str]] = set()
    text = ran.stdout
    for it in order:
        waits = {below.key for below in unfolding.named(it)} - told
        holds(f"{name}: {it.name} stands behind all that it names", not waits, str(waits))
        told.add(it.key)
        holds(f"{name}: {it.name} stands there once", text.count(f"\n{it.text}\n") == 1, str(text.count(it.text)))
        inner = (
            specs.read(f"{specs.TOP}/{it.path}").replace("\n  ", "\n")
            if it.frame
            else specs.read(f"{specs.TOP}/{it.path}")
        )
        plain = it.text.replace("\n  ", "\n") if it.frame else it.text
        is_there = all(line in inner for line in plain.splitlines())
        holds(f"{name}: {it.name} is that of its file", is_there, it.text)
    holds(
        f"{name}: no word of a definition is left out",
        not left_out(unfolding, found.values()),
        str(left_out(unfolding, found.values())),
    )
    places = [text.find(f"\n{it.text}\n") for it in [root, *order]]
    holds(f"{name}: in the order of the list", places == sorted(places) and places[0] > 0, "")
    printed = [
        it
        for it in text.split("## Words of the kit")[0].splitlines()[3:]
        if it.strip() and not re.match(r"\s*(--|//|#)", it)
    ]
    heads = {file_of(it).source for it in order if not it.is_type}
    frames = {line for it in found.values() for line in it.frame.splitlines()}
    printed = [it for it in printed if it not in heads and it not in frames]
    counted = re.search(
        r": (\d+) definitions in (\d+) lines, (\d+) types in (\d+), of (\d+) files of (\d+) crates", text
    )
    assert counted
    count = [int(it) for it in counted.groups()]
    holds(
        f"{name}: its counts",
        count[0] + count[2] == len(found)
        and count[1] + count[3] == len(printed)
        and count[4] == len({it.path for it in found.values()})
        and count[5] == len({it.crate for it in found.values()}),
        f"{count} and {len(printed)} lines",
    )
    return counted[0][2:]


def main() -> None:
    sys.setrecursionlimit(10_000)
    told = [f"{name}: {of_booklet(name)}" for name in ("Accepts", "AuditsAccepted")]
    with tempfile.TemporaryDirectory(prefix="unfolded-") as room:
        at_made(room)
        of_made_crates()
        of_heads()
        of_clauses(room)
    print("\n".join(faults or told))
    print(f"{len(faults)} faults")
    sys.exit(1 if faults else 0)


if __name__ == "__main__":
    main()
