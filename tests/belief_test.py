#!/usr/bin/env python3
"""Tries belief.py on a made-up tree of two crates, whose definitions and lines were counted by hand.

usage: tests/belief_test.py

The numbers above each text are the lines that count. The last line is 'N passed, N failed'.
"""
import contextlib
import io
import os
import sys
import tempfile

sys.dont_write_bytecode = True
import belief  # noqa: E402

TREE = {
    "crates.txt": "# Low first.\nlow:\nwcet_engine: low\n",
    "crates/low/src/lib.rt": "//! Low.\npub use thing::{Idle, Thing};\n",
    # Thing has 6 lines, and 5 more that say how contracts see it: a `ghost use` isn't counted.
    "crates/low/src/thing.rt": """//! Things.
ghost use Rattle.low.specs.Sizes.{IsSmall, size_of};

/// A thing.
#[derive(Debug)]
pub(crate) struct Thing {
    /// Its size.
    pub size: u32,
}

impl Model for Thing {
    ghost Value = { Shown };
    ghost use Rattle.low.specs.Shown.{Shown};

    ghost view = { size_of };

    ghost invariant = { λ thing. IsSmall thing };
}

/// A type that nothing names.
pub enum Idle {
    None,
}
""",
    # Shown has 2 lines.
    "crates/low/specs/Shown.antt": """-- What is seen of a thing: this comment belongs to the file.
use Rattle.std.specs.Prelude.{ℕ}

pub record Shown : Type 0 where
  pub number : ℕ
""",
    # Even has 4 lines, Odd 2, IsSmall 3, size_of 2 and named 3; spare has 3, which nothing reaches.
    "crates/low/specs/Sizes.antt": """use Rattle.std.specs.Prelude.{ℕ, suc, ◌<◌}
use Rattle.low.specs.declared.thing.Thing.{Thing}
use Rattle.low.specs.Shown.{Shown}

mutual
  -- Even numbers.
  pub data Even : ℕ → Type 0 where
    none : Even 0
    more : (n : ℕ) → Odd n → Even (suc n)

  pub data Odd : ℕ → Type 0 where
    after : (n : ℕ) → Even n → Odd (suc n)

-- Below 10. It says nothing of spare.
abbrev pub IsSmall : Shown → Type 0
IsSmall shown = shown.number < 10

abbrev pub size_of : Thing → Shown
size_of thing = record { number = thing.size }

-- A name that is reached by another name alone.
abbrev pub named : ℕ
named = 3

-- Its name is bound where it stands elsewhere.
abbrev pub spare : ℕ
spare = 4
""",
    "crates/low/specs/Lib.antt": "pub mod Shown\npub mod Sizes\n",
    # Kind has 4 lines, and wcet_main 6.
    "crates/wcet_engine/src/top.rt": """//! The top call.
ghost use Rattle.wcet_engine.specs.Answers.{Answers, told};

use low::Thing;

/// Two kinds.
pub enum Kind {
    First,
}

/// The top call.
pub fn wcet_main(
    thing: &Thing,
    spare: u32,
) -> u32
    ensures answers { Answers thing.now (told result) }
{
    told(thing)
}

/// A function, which the clause doesn't name: in a clause the name is that of the definition.
fn told(thing: &Thing) -> u32
{
    1
}
""",
    # Answers has 4 lines, and told 3. The field `told` has the name of a definition that its own type uses.
    "crates/wcet_engine/specs/Answers.antt": """use Rattle.std.specs.Prelude.{ℕ, ◌≡◌}
use Rattle.low.specs.declared.thing.Thing.{Thing}
use Rattle.low.specs.Sizes.{Even, named as other, spare}
use Rattle.wcet_engine.specs.declared.top.Kind.TheVariants as kind
use Rattle.wcet_engine.specs.declared.top.Kind.{Kind}

pub record Answers (thing : Thing) (spare : ℕ) : Type 0 where
  pub even : Even spare
  pub told : told kind.First ≡ spare
  pub least : (λ (n : ℕ). told kind.First) other ≡ spare

-- The number of a kind.
abbrev pub told : Kind → ℕ
told (kind.First) = 1
""",
}
# Thing, Shown, Even, Odd, IsSmall, size_of, named, Kind, wcet_main, Answers and told, with 11, 2, 4, 2, 3, 2, 3, 4, 6, 4 and 3.
SUMS = "belief: 11 definitions, 44 lines, 5 files"
FILES = [
    "crates/low/specs/Shown.antt: 2 lines: Shown",
    "crates/low/specs/Sizes.antt: 14 lines: Even, Odd, IsSmall, size_of, named",
    "crates/low/src/thing.rt: 11 lines: Thing",
    "crates/wcet_engine/specs/Answers.antt: 7 lines: Answers, told",
    "crates/wcet_engine/src/top.rt: 10 lines: Kind, wcet_main",
]
REST = ["crates/low/specs/Sizes.antt: 3 lines: spare", "belief: 1 definitions, 3 lines, 1 files"]
PAGE = """# Definitions

The clauses rest on at most 11 definitions in 44 lines.

| definition | in plain words | where | compared with |
|---|---|---|---|
| **what is seen** | a number | `low/specs/Shown.antt` | its own words |
| sizes nobody uses | a number | `low/specs/Unused.antt` | its own words |
| **sizes; numbers** | numbers | `low/specs/Unused.antt`, `Sizes.antt` | its own words |
"""


def answer_to(words, page, changes=()):
    """The status and the lines of belief.py for a page, with these texts changed; and the page that it leaves behind."""
    with tempfile.TemporaryDirectory() as top:
        for path, text in {**TREE, belief.PAGE: page}.items():
            for changed, old, new in changes:
                assert path != changed or text.count(old) == 1
                text = text.replace(old, new) if path == changed else text
            os.makedirs(os.path.dirname(os.path.join(top, path)), exist_ok=True)
            with open(os.path.join(top, path), "w", encoding="utf-8") as out:
                out.write(text)
        lines = io.StringIO()
        with contextlib.redirect_stdout(lines):
            status = belief.main(words, top)
        with open(os.path.join(top, belief.PAGE), encoding="utf-8") as left:
            return status, lines.getvalue().splitlines(), left.read()


def faults(page, changes=()):
    """The faults that are told of a page, without the first word of each line; the status says whether there are any."""
    status, lines, _ = answer_to([], page, changes)
    told = [line.removeprefix("belief: ") for line in lines[lines.index(next(filter(is_sum, lines))) + 1 :]]
    assert status == (1 if len(told) > 2 else 0), told
    assert told[-1] == f"{len(told) - 2} faults"
    return told[:-2]


def is_sum(line):
    """Whether a line tells the sums."""
    return line.startswith("belief: ") and " definitions, " in line


def page_with(old, new):
    """The page with one text changed."""
    assert PAGE.count(old) == 1
    return PAGE.replace(old, new)


def trials():
    """Each trial with whether it passes."""
    status, lines, _ = answer_to([], PAGE)
    yield "a right page has no fault", status == 0 and lines[-1] == "belief: 0 faults"
    yield "the sums", SUMS in lines
    told = sorted(lines[:5]) == sorted(FILES)
    yield "the files", told
    yield "a file after the one that it uses", told and lines.index(FILES[0]) < lines.index(FILES[1])
    yield "the lower crate first", told and sorted(lines[:3]) == sorted(FILES[:3])
    yield "one name of the kit, suc", "belief: 1 names of the kit, in 1 of its files" in lines
    yield "the rest", answer_to(["rest"], PAGE)[:2] == (0, REST)
    few = "docs/DEFINITIONS.md states at most 10 definitions in 44 lines"
    yield "a definition too many", faults(page_with("most 11", "most 10")) == [few]
    short = "docs/DEFINITIONS.md states at most 11 definitions in 43 lines"
    yield "a line too many", faults(page_with("44 lines", "43 lines")) == [short]
    yield "no limit", faults(page_with("at most", "about")) == ["docs/DEFINITIONS.md states no limit"]
    unmarked = page_with("**what is seen**", "what is seen")
    wrong = "docs/DEFINITIONS.md, line 7: the row has a wrong mark: what is seen"
    yield "a mark that lacks", faults(unmarked) == [wrong]
    spare = page_with("sizes nobody uses", "**sizes nobody uses**")
    wrong = "docs/DEFINITIONS.md, line 8: the row has a wrong mark: **sizes nobody uses**"
    yield "a mark too many", faults(spare) == [wrong]
    yield "marks are set", answer_to(["mark"], unmarked)[2] == PAGE and answer_to(["mark"], spare)[2] == PAGE
    lost = ("crates/low/specs/Sizes.antt", "declared.thing.Thing.{Thing}", "declared.thing.Gone.{Thing}")
    told = "crates/low/specs/Sizes.antt uses low.specs.declared.thing.Gone Gone, which isn't found"
    yield "a name that leads nowhere", faults(PAGE, [lost]) == [told]
    new = ("crates/wcet_engine/specs/Answers.antt", "told (kind.First) = 1", "told (kind.First) = spare")
    yield "a definition that is new", faults(PAGE, [new])[0].startswith("docs/DEFINITIONS.md states at most 11")
    yield "words without a form", answer_to(["all"], PAGE)[0] == 1


def main():
    """Runs the trials; answers the exit status."""
    results = list(trials())
    for name, passes in results:
        if not passes:
            print(f"failed: {name}")
    failed = sum(not passes for _, passes in results)
    print(f"belief_test: {len(results) - failed} passed, {failed} failed")
    return 1 if failed else 0


if __name__ == "__main__":
    sys.exit(main())
