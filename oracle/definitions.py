#!/usr/bin/env python3
"""Holds the replica's definitions (crates/bodega/specs) against the oracle's answers, by computing inside the check.

usage: oracle/definitions.py [SEEDS [LINES]]

Takes the recorded scripts, or, with SEEDS, generated scripts of the seeds 0 to SEEDS - 1, LINES lines each (40). Each script's calls become a
list with the answers that the original Rust gave, and the check has to compute them: `refl`. Draft lines become the roster that a heartbeat
brings. Left out: refusals 1 and 2, which are the event program's, and scripts with bytes that antt's texts do not have or with more than 90
lines; a script that takes more steps than the check allows is counted apart. It wants `rt`, and `cargo build --release` in oracle/ done before; it works in a temporary folder and leaves the repository alone.
"""
import os
import shutil
import subprocess
import sys
import tempfile

ROOT = os.path.dirname(os.path.dirname(os.path.abspath(__file__)))
ORACLE = os.path.join(ROOT, "oracle", "target", "release", "oracle")
PER_FILE = 60

HEAD = """use Rattle.std.specs.Prelude.{◌≡◌, ℕ, true, false, List, [], ◌∷◌, map}
use Rattle.std.proofs.Common.{refl}
use Rattle.std.specs.Prelude.{None, Some}
use Rattle.items.specs.Item.{Item, Value, Absent, Store, Pass, Hold, Retry, Resend, Commit, Lead, Prelog, Prepare}
use Rattle.roster_conf.specs.Conf.{empty, set_leader, set_full, into_filtered, reset_full}
use Rattle.roster_conf.specs.Edit.{edit, SetResponders}
use Rattle.bodega.specs.Replica.{Request, ReadReq, Put, Get, Replica, fresh, Call, Heartbeat, Guard, Prepared, Record, Reply, Notice, CommitNotice, Bars, Read, Release}
use Rattle.bodega.specs.Step.{Step, Refused, Taken, answers}
use Rattle.words.specs.Text.{bytes}
use Rattle.bodega.proofs.Computes.{computes}

-- the items of a step, or the number of its refusal
data Line : Type 0 where
  items : List Item → Line
  refused : ℕ → Line

abbrev line_of : Step → Line
line_of (Refused n) = refused n
line_of (Taken r l) = items l

abbrev put : ℕ → ℕ → List ℕ → ℕ → Request
put c n key v = record { client = c; request = n; key = key; command = Put v }

abbrev got : ℕ → ℕ → List ℕ → Request
got c n key = record { client = c; request = n; key = key; command = Get }

abbrev wants : ℕ → ℕ → List ℕ → ReadReq
wants c n key = record { client = c; request = n; key = key }

-- a call and what it is answered
record Told : Type 0 where
  call : Call
  line : Line

infixr 4 ◌gives◌then◌
abbrev ◌gives◌then◌ : Call → Line → List Told → List Told
c gives l then ts = record { call = c; line = l } ∷ ts

-- the replica answers each call so
abbrev Plays : Replica → List Told → Type 0
Plays r ts = map line_of (answers r (map (λ (t : Told). record { call = t.call; places = 546 }) ts)) ≡ map (λ (t : Told). t.line) ts

"""


def numbers(fields):
    return " ".join(str(int(f)) for f in fields)


def item(text):
    f = text.split(",")
    if f[0] == "retry":
        return f"Retry {f[1]} {f[2]} " + ("None" if f[3] == "-" else f"(Some {f[3]})")
    if f[0] == "lead":
        return "Lead " + ("true" if f[1] == "1" else "false")
    return f"{f[0].capitalize()} {numbers(f[1:])}"


def edited(roster, f):
    if f[0] == "lead":
        return f"set_leader {int(f[1])} ({roster})"
    if f[0] == "range":
        return f'edit ({roster}) (SetResponders (bytes "{f[1]}") (bytes "{f[2]}") {int(f[3])})'
    if f[0] == "whole":
        return f"set_full {int(f[1])} ({roster})"
    if f[0] == "drop":
        return f"into_filtered {int(f[1])} ({roster})"
    if f[0] == "reset":
        return f"reset_full ({roster})"
    return roster


def request(g):
    key = f'(bytes "{g[2]}")'
    return f"put {int(g[0])} {int(g[1])} {key} {int(g[3])}" if g[3] else f"got {int(g[0])} {int(g[1])} {key}"


def call(f, roster):
    kind = f[0]
    if kind == "heard":
        brought = f"(Some ({roster}))" if int(f[3]) == 1 else "None"
        return f"Heartbeat {numbers(f[1:3])} {brought} {numbers(f[4:])}"
    if kind == "record":
        groups = [request(f[i : i + 4]) for i in range(3, len(f), 4)]
        return f"Record {numbers(f[1:3])} " + ("(" + " ∷ ".join(groups) + " ∷ [])" if groups else "[]")
    if kind == "read":
        return f'Read {int(f[3])} (wants {numbers(f[1:3])} (bytes "{f[4]}"))'
    name = {"guard": "Guard", "prepared": "Prepared", "reply": "Reply", "notice": "Notice", "commit": "CommitNotice", "bars": "Bars", "release": "Release"}[kind]
    return f"{name} {numbers(f[1:])}"


def told(script, answers):
    """The node's numbers, and (call, answer) of each call; None where the script is left out."""
    if any(b > 126 or (b < 32 and b != 10) for b in script) or b'"' in script or b"\\" in script:
        return None
    lines = script.decode().rstrip("\n").split("\n")
    if len(lines) > 90:
        return None
    answers = answers.decode().rstrip("\n").split("\n")
    node, roster, calls, at = None, "empty", [], 0
    for line in lines:
        _, kind, number = answers[at].split(",")
        at += 1
        given = answers[at : at + int(number)] if kind == "taken" else []
        at += len(given)
        if kind == "refused" and number in ("1", "2"):
            continue
        f = line.split(",")
        if f[0] == "node":
            node = numbers(f[1:])
        elif f[0] in ("lead", "range", "whole", "drop", "reset", "show"):
            roster = edited(roster, f) if kind == "taken" else roster
        else:
            answer = f"refused {number}" if kind == "refused" else "items " + ("(" + " ∷ ".join(map(item, given)) + " ∷ [])" if given else "[]")
            calls.append((call(f, roster), answer))
    return (node, calls) if node and calls else None


def scripts(folder):
    if len(sys.argv) > 1:
        for seed in range(int(sys.argv[1])):
            lines = sys.argv[2] if len(sys.argv) > 2 else "40"
            yield subprocess.run([ORACLE, "generate", str(seed), lines], stdout=subprocess.PIPE, check=True).stdout
        return
    subprocess.run([ORACLE, "extract", os.path.join(ROOT, "oracle", "recorded", "scripts.rec"), folder], check=True, stdout=subprocess.DEVNULL)
    for name in sorted(os.listdir(folder)):
        if name.endswith(".in"):
            with open(os.path.join(folder, name), "rb") as f:
                yield f.read()


def main():
    if not os.path.exists(ORACLE):
        sys.exit("definitions: build the oracle first (cargo build --offline --release in oracle/)")
    work = tempfile.mkdtemp()
    os.makedirs(os.path.join(work, "scripts"))
    texts, sizes, left = [], {}, 0
    for script in scripts(os.path.join(work, "scripts")):
        answers = subprocess.run([ORACLE], input=script, stdout=subprocess.PIPE, check=True).stdout
        one = told(script, answers)
        if one is None:
            left += 1
            continue
        node, pairs = one
        name = f"s{len(texts)}"
        sizes[name] = len(pairs)
        body = "\n    ".join(f"({c}) gives ({a}) then" for c, a in pairs)
        texts.append(f"abbrev {name} : List Told\n{name} =\n    ({body}\n    [])\n\nplays_{name} : Plays (fresh {node}) {name}\nunfolding computes edit\nplays_{name} = refl\n\n")
    repo = os.path.join(work, "repo")
    shutil.copytree(os.path.join(ROOT, "crates"), os.path.join(repo, "crates"), ignore=shutil.ignore_patterns("must-fail", "key_program", "key_lines", "exports*", "out"))
    with open(os.path.join(ROOT, "crates.txt"), encoding="utf-8") as f:
        listed = [l for l in f if not l.startswith(("#", "key_program", "key_lines", "exports"))]
    crate = os.path.join(repo, "crates", "definitions")
    for part in ("src", "specs", "proofs"):
        os.makedirs(os.path.join(crate, part))
    with open(os.path.join(repo, "crates.txt"), "w", encoding="utf-8") as f:
        f.write("".join(listed) + "definitions: bodega items roster_conf words\n")
    with open(os.path.join(crate, "src", "lib.rt"), "w", encoding="utf-8") as f:
        f.write("// Scripts, by computing.\n#![tactic(auto)]\n")
    open(os.path.join(crate, "specs", "Lib.antt"), "w").close()
    files = range(0, len(texts), PER_FILE)
    with open(os.path.join(crate, "proofs", "Lib.antt"), "w", encoding="utf-8") as f:
        f.write("".join(f"pub mod Part{i}\n" for i in files))
    for i in files:
        with open(os.path.join(crate, "proofs", f"Part{i}.antt"), "w", encoding="utf-8") as f:
            f.write(HEAD + "".join(texts[i : i + PER_FILE]))
    done = subprocess.run(["rt", "check"], cwd=crate, stdout=subprocess.PIPE, stderr=subprocess.STDOUT)
    errors = [l for l in done.stdout.decode("utf-8", "replace").split("\n") if ": error:" in l]
    endless = [l for l in errors if "stopped at the step limit" in l]
    if len(errors) > len(endless) or (done.returncode != 0 and not endless):
        print("\n".join(l[:300] for l in errors if l not in endless) or done.stdout.decode("utf-8", "replace")[-600:])
        sys.exit(f"definitions: something differs; the files are in {crate}")
    shutil.rmtree(work)
    stopped = {n for n in sizes if any(f"`plays_{n}`" in l for l in endless)}
    if len(stopped) != len(endless):
        sys.exit("definitions: a script that the check did not compute is not named")
    calls = sum(size for n, size in sizes.items() if n not in stopped)
    print(f"definitions: {len(texts) - len(stopped)} scripts, {calls} calls, no difference; {left} scripts left out, {len(stopped)} more than the check computes and not compared")


main()
