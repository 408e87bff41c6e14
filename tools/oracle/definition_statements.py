"""Writes definition.py's cases as statements in antt: `compile` of a request and of what is lent is the answer with the words after it."""
from definition_cases import line_of, padded

MODES = {"exact": "exactly", "restricted": "restricted", "relaxed": "relaxing"}
CUTS = {"lel": "last_exact_layer", "frontier": "frontier"}

# Short forms for what a compile is asked, answers and leaves.
FORMS = """-- Short forms for what a compile is asked, answers and leaves.
use Rattle.std.specs.Prelude.{Bool, List, ℕ, ℤ}
use Rattle.std.proofs.Math.Option.{Option}
use Rattle.diagram.specs.Tables.{Range}
use Rattle.diagram.specs.Run.{Mode}
use Rattle.diagram.specs.After4.{CutsetKind}
use Rattle.calls.specs.Asked.{Given}
use Rattle.calls.specs.Compile.{Request, Lent, Answer, compiled, After}

abbrev pub given : ℕ → ℤ → ℤ → ℕ → List ℕ → Given
given capacity value bound depth path = record { capacity = capacity; value = value; bound = bound; depth = depth; path = path }

abbrev pub ask : Mode → CutsetKind → ℕ → ℕ → ℤ → List ℕ → List ℕ → Given → Request
ask mode kind width page lower weights profits start =
    record {
      problem = record { weights = weights; profits = profits; page = page; width = width };
      mode = mode;
      kind = kind;
      lower = lower;
      given = start;
    }

abbrev pub range : ℕ → ℕ → Range
range lo hi = record { lo = lo; hi = hi }

abbrev pub found : Bool → Option ℤ → List ℕ → Option ℤ → List ℕ → ℕ → ℕ → ℕ → List Range → Answer
found exact best path best_exact exact_path node_count edge_count drained_count layers =
    compiled (record {
      exact = exact;
      best = best;
      path = path;
      best_exact = best_exact;
      exact_path = exact_path;
      node_count = node_count;
      edge_count = edge_count;
      drained_count = drained_count;
      layers = layers;
    })

abbrev pub lent : List ℕ → List ℕ → List ℕ → Lent
lent nodes edges records = record { nodes = nodes; edges = edges; records = records }

abbrev pub left : Answer → Lent → After
left answer lent = record { answer = answer; lent = lent }
"""

# The first lines of each file of statements.
HEAD = """-- Compiles that antt has to compute, each as the Rust or document 01's table has it.
use mathlib.Core.Path.{◌≡◌, refl}
use mathlib.Core.Bool.{true, false}
use mathlib.Core.List.{[], ◌∷◌}
use mathlib.Core.Option.{none, some}
use lib.IntN.{pos, negsuc}
use Rattle.diagram.specs.Run.{exactly, restricted, relaxing}
use Rattle.diagram.specs.After4.{last_exact_layer, frontier}
use Rattle.calls.specs.Compile.{refused, compile}
use Rattle.calls.proofs.Computing.{computing}
use Rattle.compared.specs.Forms.{given, ask, range, found, lent, left}
"""


def integer(number):
    return f"(pos {number})" if number >= 0 else f"(negsuc {-number - 1})"


def option(number):
    return "none" if number is None else f"(some {integer(number)})"


def listed(things):
    return "(" + "".join(f"{thing} ∷ " for thing in things) + "[])"


def lent(tables):
    return "(lent " + " ".join(listed(words) for words in tables) + ")"


def request(asked):
    record = asked.record
    start = f"(given {record.capacity} {integer(record.value)} {integer(record.bound)} {record.depth} {listed(record.path)})"
    return (
        f"(ask {MODES[asked.mode]} {CUTS[asked.cut]} {asked.width} {asked.page} {integer(asked.lower)}"
        f" {listed(asked.weights)} {listed(asked.profits)} {start})"
    )


def answer(number, found):
    if number is not None:
        return f"(refused {number})"
    layers = listed(f"range {first} {end}" for first, end in found.layers)
    return (
        f"(found {'true' if found.exact else 'false'} {option(found.best)} {listed(padded(found.path))}"
        f" {option(found.exact_best)} {listed(padded(found.exact_path))}"
        f" {len(found.node_rows)} {len(found.edge_rows)} {len(found.records)} {layers})"
    )


def origin(case):
    """Where the case comes from: its sort, and the oracle's request if the oracle was asked."""
    return case.call.sort + ("" if case.answer is None else f": {line_of(case.call.request, case.call.rooms)}")


def statement(name, case):
    """One equation of two lists, as antt wants them computed; a false one is refused."""
    return (
        f"\n-- {origin(case)}\n"
        f"pub {name} : (compile {request(case.call.request)} {lent(case.call.lent)} ∷ [])\n"
        f"    ≡ (left {answer(case.number, case.answer)} {lent(case.left)} ∷ [])\n"
        f"unfolding computing\n"
        f"{name} = refl\n"
    )
