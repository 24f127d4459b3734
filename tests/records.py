#!/usr/bin/env python3
"""When a wrong body has to be tried anew (tests/wrong_bodies/sources.py): a repository of two crates, of which one stands above the
other, is changed in one place, and a table says for which of them what its proofs rest on is other then, and which part of it. The
crates are read and not proved.
"""

import pathlib
import sys
import tempfile

import needs

sys.path.insert(0, str(pathlib.Path(__file__).resolve().parent / "wrong_bodies"))
from sources import Sources  # noqa: E402

needs.wanted("rt")

FILES = {
    "crates.txt": """# Two crates.
low:
high: low
""",
    "crates/low/src/lib.rt": """//! Bytes.
#![tactic(auto)]
ghost use Rattle.std.specs.Prelude.{◌≡◌, ◌+◌, ◌<◌, ℕ, List, length};
ghost use Rattle.low.specs.Count.{count};

mod held;

use std::alloc::AllocError;
use std::cmp::{max, min as least};
pub use crate::held::Held;

/// How many there are at most.
pub const MOST: usize = 8;

/// Whatever has a count.
pub trait Counted {
    /// Its count.
    ghost counted: { Self → ℕ };

    fn count(&self) -> usize
        ensures { result ≡ counted self.now };
}

impl Counted for Held {
    ghost counted = { λ held. length held.bytes.items };

    fn count(&self) -> usize {
        self.bytes.len()
    }
}

impl Counted for [u8; 4] {
    ghost counted = { λ bytes. 4 };

    fn count(&self) -> usize
        ensures four { result ≡ 4 }
    {
        4
    }
}

/// The sum of two numbers, the second of which is small.
#[tactic(auto, using(crate::proofs::Sums::small_sum))]
pub fn sum(one: usize, other: usize) -> Result<usize, AllocError>
    requires small { other < 8 }
    ensures value { result ≡ one + other }
{
    let more = |number: usize| { number + other };
    Ok(more(least(one, 7)))
}

/// The larger one.
fn larger(one: usize, other: usize) -> usize
    ensures { one < result + 1 }
{
    max(one, other)
}
""",
    "crates/low/src/held.rt": """use std::vec::Vec;

/// Bytes that are held.
#[derive(Clone)]
pub struct Held {
    pub(crate) bytes: Vec<u8>,
}

impl Held {
    /// No bytes.
    pub fn none() -> Held
        ensures { result.bytes.items ≡ [] }
    {
        Held { bytes: Vec::new() }
    }

    fn is_short(&self) -> bool {
        self.bytes.len() < 8
    }
}
""",
    "crates/low/specs/Lib.antt": """pub mod Count
""",
    "crates/low/specs/Count.antt": """-- How many there are.
use Rattle.std.specs.Prelude.{ℕ, List, length}

-- one for each
abbrev pub count : List ℕ → ℕ
count bytes = length bytes
""",
    "crates/low/proofs/Lib.antt": """pub mod Sums
mod Steps
""",
    "crates/low/proofs/Sums.antt": """-- Sums.
use Rattle.std.proofs.Common.{◌≡◌, ◌+◌, ◌≤◌, ℕ, zero, suc, List, length, refl, arith}
use Rattle.low.specs.Count.{count}

pub small_sum : (a b : ℕ) → a + b ≡ b + a
small_sum a b = omega arith

helper : (a : ℕ) → a + 0 ≡ a
helper a = omega arith

abbrev pub twice : ℕ → ℕ
twice a = a + a

unfoldable pub thrice : ℕ → ℕ
thrice a = a + twice a

hidden : ℕ → ℕ
hidden a = a

pub record IsSum (a b : ℕ) : Type 0 where
  pub whole : ℕ
  pub whole-is : whole ≡ a + b

module _ (a : ℕ) where
  pub self_sum : a + a ≡ twice a
  self_sum = refl

mutual
  pub even : ℕ → Type 0
  even zero = Unit {0}
  even (suc n) = odd n

  odd : ℕ → Type 0
  odd zero = ⊥
  odd (suc n) = even n
""",
    "crates/low/proofs/Steps.antt": """use Rattle.std.proofs.Common.{◌≡◌, ℕ}

pub step : (a : ℕ) → a ≡ a
step a = refl
""",
    "crates/low/proofs/lib/sum/Answers.antt": """use Rattle.low.proofs.Sums.{small_sum}

abbrev pub returns-clause-value : goal.returns-clause-value
returns-clause-value c = small_sum c.one c.other
""",
    "crates/high/src/lib.rt": """use low::sum;

pub fn more(number: usize) -> usize
    ensures { number ≤ result }
{
    sum(number, 1).unwrap_or(number)
}
""",
}

# What is changed: a title, the file, an old text and a new one; and for each crate of which of its parts something is other then.
LOW, HIGH = ("low", "src"), ("high", "low")
ROWS = [
    ("a comment on a file", "crates/low/src/lib.rt", "//! Bytes.", "//! Octets.", []),
    ("a comment on a function", "crates/low/src/lib.rt", "/// The larger one.", "/// The one that is larger.", []),
    ("a comment in a body", "crates/low/src/lib.rt", "    max(one, other)", "    // The larger one.\n    max(one, other)", []),
    ("a comment on a type that derives", "crates/low/src/held.rt", "/// Bytes that are held.", "/// Held bytes.", []),
    ("layout of code", "crates/low/src/lib.rt", "    max(one, other)", "    max(\n        one, other)", []),
    ("a comment on a definition", "crates/low/specs/Count.antt", "-- one for each", "-- one for each byte", []),
    ("layout of a definition", "crates/low/specs/Count.antt", "count bytes = length bytes", "count bytes =\n  length bytes", []),
    ("a comment on a lemma", "crates/low/proofs/Sums.antt", "-- Sums.", "-- Sums of numbers.", []),
    ("a body", "crates/low/src/lib.rt", "least(one, 7)", "least(one, 6)", [LOW]),
    ("a body of a private function", "crates/low/src/lib.rt", "max(one, other)", "max(other, one)", [LOW]),
    ("a body of an impl of a trait", "crates/low/src/lib.rt", "self.bytes.len()\n", "self.bytes.len() + 0\n", [LOW]),
    ("a body of a method", "crates/low/src/held.rt", "Vec::new()", "Vec::default()", [LOW]),
    ("how a proof is looked for", "crates/low/src/lib.rt", "Sums::small_sum", "Sums::self_sum", [LOW]),
    ("an import for bodies", "crates/low/src/lib.rt", "min as least", "min as least, Ordering", [LOW]),
    ("another thing by the name of an import for bodies", "crates/low/src/lib.rt", "std::cmp::{max", "std::other::{max", [LOW]),
    ("the contract of a private function", "crates/low/src/lib.rt", "one < result + 1", "one < result + 2", [LOW]),
    ("a private function that is new", "crates/low/src/lib.rt", "/// The larger one.", "fn new() {}\n\n/// The larger one.", [LOW]),
    ("a private method that is new", "crates/low/src/held.rt", "    fn is_short", "    fn new(&self) {}\n\n    fn is_short", [LOW]),
    ("a module that is new and private", "crates/low/src/lib.rt", "mod held;", "mod held;\nmod other;", [LOW]),
    ("a clause", "crates/low/src/lib.rt", "result ≡ one + other", "result ≡ other + one", [LOW, HIGH]),
    ("what a call asks for", "crates/low/src/lib.rt", "other < 8", "other < 9", [LOW, HIGH]),
    ("the name of a clause", "crates/low/src/lib.rt", "ensures value {", "ensures sum {", [LOW, HIGH]),
    ("a signature", "crates/low/src/lib.rt", "other: usize) -> Result", "other: u64) -> Result", [LOW, HIGH]),
    ("the contract of a method for rows of bytes", "crates/low/src/lib.rt", "four { result ≡ 4 }", "four { result ≡ 2 + 2 }", [LOW, HIGH]),
    ("the contract of a method", "crates/low/src/held.rt", "result.bytes.items ≡ []", "result.bytes.items ≡ [] ++ []", [LOW, HIGH]),
    ("a private function that is public", "crates/low/src/lib.rt", "\nfn larger", "\npub fn larger", [LOW, HIGH]),
    ("a type", "crates/low/src/held.rt", "bytes: Vec<u8>,", "bytes: Vec<u16>,", [LOW, HIGH]),
    ("what a type derives", "crates/low/src/held.rt", "derive(Clone)", "derive(Copy)", [LOW, HIGH]),
    ("a constant", "crates/low/src/lib.rt", "usize = 8", "usize = 9", [LOW, HIGH]),
    ("a trait", "crates/low/src/lib.rt", "counted self.now", "counted self.now + 0", [LOW, HIGH]),
    ("what a trait speaks of", "crates/low/src/lib.rt", "{ Self → ℕ }", "{ Self → List ℕ }", [LOW, HIGH]),
    ("what an impl makes of it", "crates/low/src/lib.rt", "length held.bytes.items", "length held.bytes.items + 0", [LOW, HIGH]),
    ("what is handed on", "crates/low/src/lib.rt", "pub use crate::held::Held", "pub use crate::held::{Held, Other}", [LOW, HIGH]),
    ("an import for a signature", "crates/low/src/lib.rt", "std::alloc::AllocError", "std::other::AllocError", [LOW, HIGH]),
    ("an import for a clause", "crates/low/src/lib.rt", "Rattle.std.specs.Prelude", "Rattle.std.specs.Other", [LOW, HIGH]),
    ("a definition", "crates/low/specs/Count.antt", "= length bytes", "= length bytes + 0", [("low", "specs"), HIGH]),
    ("a public lemma", "crates/low/proofs/Sums.antt", "a + b ≡ b + a", "b + a ≡ a + b", [("low", "proofs"), HIGH]),
    ("a public lemma of a module", "crates/low/proofs/Sums.antt", "a + a ≡ twice a", "twice a ≡ a + a", [("low", "proofs"), HIGH]),
    ("what a module is about", "crates/low/proofs/Sums.antt", "module _ (a : ℕ)", "module _ (a b : ℕ)", [("low", "proofs"), HIGH]),
    ("a record among lemmas", "crates/low/proofs/Sums.antt", "whole ≡ a + b", "whole ≡ b + a", [("low", "proofs"), HIGH]),
    ("a definition that unfolds", "crates/low/proofs/Sums.antt", "twice a = a + a", "twice a = a + a + 0", [("low", "proofs"), HIGH]),
    ("a definition that may be unfolded", "crates/low/proofs/Sums.antt", "thrice a = a + twice a", "thrice a = twice a + a", [("low", "proofs"), HIGH]),
    ("an import for a lemma", "crates/low/proofs/Sums.antt", "Rattle.std.proofs.Common", "Rattle.std.proofs.Other", [("low", "proofs"), HIGH]),
    ("the proof of a lemma", "crates/low/proofs/Sums.antt", "small_sum a b = omega arith", "small_sum a b = grind arith", [("low", "proofs")]),
    ("the proof of a lemma of a module", "crates/low/proofs/Sums.antt", "self_sum = refl", "self_sum = cc", [("low", "proofs")]),
    ("the cases of what doesn't unfold", "crates/low/proofs/Sums.antt", "even zero = Unit {0}", "even zero = ⊥", [("low", "proofs")]),
    ("a private lemma", "crates/low/proofs/Sums.antt", "a + 0 ≡ a", "a ≡ a + 0", [("low", "proofs")]),
    ("a private definition", "crates/low/proofs/Sums.antt", "hidden a = a", "hidden a = a + 0", [("low", "proofs")]),
    ("an import for proofs", "crates/low/proofs/Sums.antt", "refl, arith}", "refl, arith, sym}", [("low", "proofs")]),
    ("a lemma of a private module", "crates/low/proofs/Steps.antt", "a ≡ a", "a + 0 ≡ a", [("low", "proofs")]),
    ("a goal's answer", "crates/low/proofs/lib/sum/Answers.antt", "small_sum c.one c.other", "grind", [("low", "proofs")]),
    ("a crate above", "crates/high/src/lib.rt", "unwrap_or(number)", "unwrap_or(1)", [("high", "src")]),
    ("a library that is no longer used", "crates.txt", "high: low", "high:", [HIGH]),
]


def under(root):
    """What each crate is proved over: the checksum of each part."""
    sources = Sources(root)
    return {(crate, part): value for crate in sources.uses for part, value in sources.under(crate).items()}


def main():
    failed = 0
    with tempfile.TemporaryDirectory() as room:
        root = pathlib.Path(room)
        for name, text in FILES.items():
            (root / name).parent.mkdir(parents=True, exist_ok=True)
            (root / name).write_text(text)
        before = under(root)
        for title, name, old, new, wanted in ROWS:
            assert FILES[name].count(old) == 1, title
            (root / name).write_text(FILES[name].replace(old, new))
            after = under(root)
            (root / name).write_text(FILES[name])
            found = [key for key in before if before[key] != after.get(key)]
            if found != wanted:
                failed += 1
                print(f"{title}: other is {found}, and not {wanted}")
    print(f"what a proof rests on: {len(ROWS) - failed} changes seen for what they are, {failed} failed")
    return int(failed > 0)


if __name__ == "__main__":
    sys.exit(main())
