#!/usr/bin/env python3
"""models.py JSON CRATE [PER_MODULE]: writes a crate that states the definition's answers equal to
the Rust's.

JSON holds one model a line, as `oracle gen` prints it. The crate's proofs have one module for each
PER_MODULE models (default 25) and one statement a model, proved by `refl`: the answer with the
number of lines and of edges followed, the stored lines with their six fields in order, and the
severity of each line.
"""
import json
import os
import sys

HEAD = """\
-- Random models with the answers of the Rust, made by tests/oracle.
use Prim.Native.Nat.{ℕ}
use mathlib.Core.Path.{◌≡◌, refl}
use mathlib.Core.List.{List, [], ◌∷◌, map}
use Rattle.lustre.specs.Answer.{answer, stored_report}
use Rattle.lustre.specs.Line.{severity, Severity, Error, Warning}
use Rattle.lustre.specs.Computes.{computes}
use Rattle.lustre.specs.declared.Line.{Line}
use Rattle.lustre.specs.declared.Answer.{Answer}
use Rattle.lustre.specs.declared.Answer.TheVariants.{Report}

-- a line with its severity
abbrev ln : Severity → ℕ → ℕ → ℕ → ℕ → ℕ → ℕ → Line × Severity
ln v c p n e s x = (record { code = c; place = p; number = n; equation = e; step = s; name = x }, v)

abbrev Judged : Type 0
Judged = Answer × List (Line × Severity)

abbrev judged : List ℕ → List ℕ → List ℕ → Judged
judged kinds words text = (answer kinds words text 4096 4096, map (λ l. (l, severity l.code)) (stored_report kinds words text))
"""


def antt_list(items):
    return "(" + " ∷ ".join([*map(str, items), "[]"]) + ")"


def statement(number, model):
    severities = ["Warning" if i in model["warnings"] else "Error" for i in range(len(model["lines"]))]
    lines = [f"ln {s} {' '.join(map(str, line))}" for s, line in zip(severities, model["lines"])]
    given = " ".join(antt_list(model[part]) for part in ("kinds", "words", "text"))
    answer = f"Report {len(lines)} {model['followed']}"
    return (f"\nm{number} : ◌≡◌ {{A = Judged}} (judged {given})\n    ({answer}, {antt_list(lines)})\n"
            f"unfolding computes\nm{number} = refl\n")


def write(path, text):
    os.makedirs(os.path.dirname(path), exist_ok=True)
    with open(path, "w", encoding="utf-8") as f:
        f.write(text)


def main():
    source, crate, *rest = sys.argv[1:]
    size = int(rest[0]) if rest else 25
    with open(source, encoding="utf-8") as f:
        models = [json.loads(line) for line in f]
    write(f"{crate}/src/lib.rt", "// Random models with the answers of the Rust.\n")
    names = []
    for start in range(0, len(models), size):
        name = f"Models{start // size:03}"
        names.append(name)
        body = "".join(statement(start + i, m) for i, m in enumerate(models[start:start + size]))
        write(f"{crate}/proofs/{name}.antt", HEAD + body)
    write(f"{crate}/proofs/Lib.antt", "".join(f"pub mod {name}\n" for name in names))
    write(f"{crate}/specs/Lib.antt", "")


main()
