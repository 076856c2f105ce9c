#!/usr/bin/env python3
"""Brings the repository's own definitions, fields and lemmas to snake case, after port.py: tools/spelling.py [--dry]

Run once, at the top. It goes over crates/*/specs, crates/*/proofs, the ghost text of crates/*/src and the texts of
crates/*/must-fail. Functions of src/, exported names, strings, inputs and outputs keep their names; so does a name
that a file takes from a library. Names that would fall together in one file are listed, and the script ends with 1.
"""
import collections
import glob
import re
import sys

DELIMITERS = r"\s(){}\[\].,;«»⟦⟧`"
TOKEN = re.compile(rf"[^{DELIMITERS}]+")
DEFINED = re.compile(
    rf"^\s*(?:(?:abbrev|unfoldable|pub|ruleset)\s+)*([^{DELIMITERS}:]+(?:[ \t]+[^{DELIMITERS}:]+)*)[ \t]*:\s", re.M)
DECLARED = re.compile(rf"^\s*(?:pub\s+)?(?:data|record|ruleset)\s+(?:pub\s+)?([^{DELIMITERS}:]+)", re.M)
USE = re.compile(r"^\s*(?:ghost )?use (\S+?)\.\{([^}]*)\}", re.M)
WORDS = {"abbrev", "unfoldable", "pub", "ruleset", "let", "elim", "in", "λ"}

# Names that snake case would make equal to another name of the same file, or that say less than they could.
CHOSEN = {
    "getD_part": "get_or_part",
    "getD-tab": "get_or_tab",
    "atMost48": "at_most_48",
    "becomeALeader": "become_a_leader",
    "◌andThen◌": "◌and_then◌",
    "ifNone◌then◌else◌": "if_none◌then◌else◌",
    "ifNone": "if_none",
    "andThen": "and_then",
}

# Lemmas that are in snake case already and would have the name of a definition that the same file speaks of: each
# gets `_lem`, in these files of its crate's proofs/.
LEMMAS = {
    "as_byte": ("line_calls/proofs/", "line_draft/proofs/"),
    "goes_on": ("roster_ranges/proofs/Meaning.antt",),
    "in_order": ("call_bars/proofs/Laws.antt",),
    "is_read": ("line_calls/proofs/Laws.antt",),
    "none_left": ("line_calls/proofs/", "line_fields/proofs/"),
    "ready_for": ("line_calls/proofs/",),
    "too_many": ("roster_conf/proofs/Rosters.antt", "roster_ranges/proofs/Meaning.antt"),
}


def snake(name):
    if name in CHOSEN:
        return CHOSEN[name]
    name = name.replace("getD", "getOr")
    name = re.sub(r"(?<=[a-z0-9'])([A-Z])", lambda m: "_" + m.group(1), name)
    return name.replace("-", "_").lower()


def odd(name):
    return name in CHOSEN or (re.match(r"[a-z]", name) and (re.search(r"[A-Z]", name) or "-" in name)
                              and re.fullmatch(r"[A-Za-z0-9_'?₀-₉μα-ωκ-]+", name))


def files():
    for pattern in ("specs/**/*.antt", "proofs/**/*.antt", "src/**/*.rt", "must-fail/*.edit"):
        for path in sorted(glob.glob("crates/*/" + pattern, recursive=True)):
            if "/out/" not in path:
                yield path


def imports(text):
    """The names that a file takes, by the module that it takes them from."""
    for module, names in USE.findall(text):
        for name in names.split(","):
            parts = name.split()
            if parts:
                yield module, parts[0], parts[-1]


def own(module, crates):
    parts = module.split(".")
    return parts[0] == "Rattle" and len(parts) > 1 and parts[1] in crates


def main():
    dry = "--dry" in sys.argv
    texts = {path: open(path, encoding="utf-8").read() for path in files()}
    crates = {path.split("/")[1] for path in texts}

    defined = set(CHOSEN)
    for path, text in texts.items():
        if not path.endswith(".antt"):
            continue
        for match in DEFINED.finditer(text):
            rest = text[match.end():match.end() + 4]
            if path.endswith("/Proof.antt") and rest.startswith("tie."):
                continue
            defined.update(n for n in match.group(1).split() if n not in WORDS)
        defined.update(DECLARED.findall(text))
    turned = {name: snake(name) for name in defined if odd(name)}
    # A lemma that would have its definition's name gets `_lem`.
    taken = {name for name in defined if not odd(name)} | {new for name, new in turned.items() if "-" not in name}
    for name, new in turned.items():
        if "-" in name and new in taken:
            turned[name] = new + "_lem"

    clashes = 0
    for path, text in texts.items():
        foreign, aliases = set(), set()
        for module, name, alias in imports(text):
            if not own(module, crates):
                foreign.update((name, alias))
        for match in re.finditer(r"^\s*use (\S+) as (\S+)\s*$", text, re.M):
            if not own(match.group(1), crates):
                aliases.add(match.group(2))
        local = {n: t for n, t in turned.items() if n not in foreign}
        for name, places in LEMMAS.items():
            if any(place in path for place in places):
                local[name] = name + "_lem"

        def word(match, line):
            name = match.group(0)
            start = match.start()
            if name not in local:
                return name
            before = re.search(r"([^\s(){}\[\],;«»⟦⟧`.]+)\.$", line[:start])
            if before and before.group(1) in aliases | {"tie"}:
                return name
            return local[name]

        out, seen = [], collections.defaultdict(set)
        lines = text.split("\n")
        for number, line in enumerate(lines):
            mark = "--" if path.endswith(".antt") else "//"
            code, comment = line, ""
            at = re.search(r"(?:^|\s)" + mark + r"(?:\s|$)", line)
            if at and not path.endswith(".edit"):
                code, comment = line[:at.start()], line[at.start():]
            if path.endswith(".antt") or "ghost use" in code:
                new = TOKEN.sub(lambda m: word(m, code), code)
                if not re.match(r"\s*use (?!Rattle\.)", code):
                    for m in TOKEN.finditer(code):
                        seen[word(m, code)].add(m.group(0))
            else:
                # Rust text: no word of it is in camel case but a ghost one, and none has a dash.
                new = re.sub(r"(?<![A-Za-z0-9_\"'-])[a-z][a-z0-9]*(?:[A-Z][A-Za-z0-9]*)+'*(?![A-Za-z0-9_-])",
                             lambda m: local.get(m.group(0), m.group(0)), code)
                new = re.sub(r"`?◌?\b(andThen|ifNone)\b", lambda m: m.group(0).replace(m.group(1), CHOSEN[m.group(1)]), new)
                for m in re.finditer(r"[A-Za-z_][A-Za-z0-9_']*", code):
                    seen[local.get(m.group(0), m.group(0))].add(m.group(0))
            comment = re.sub(r"`([^`]*)`", lambda m: "`" + TOKEN.sub(lambda w: turned.get(w.group(0), w.group(0)), m.group(1)) + "`", comment)
            comment = re.sub(r"(?<![A-Za-z0-9_\"'-])[a-z][a-z0-9]*(?:[A-Z][A-Za-z0-9]*)+'*(?![A-Za-z0-9_-])",
                             lambda m: turned.get(m.group(0), m.group(0)), comment)
            out.append(new + comment)
        if not path.endswith(".edit"):
            for name, olds in sorted(seen.items()):
                if len(olds) > 1 and any(o in local for o in olds):
                    clashes += 1
                    print(f"falls together: {path}: {', '.join(sorted(olds))} as {name}")
        new = "\n".join(out)
        if new != text and not dry:
            open(path, "w", encoding="utf-8").write(new)
    print(f"{len(turned)} names")
    return 1 if clashes else 0


if __name__ == "__main__":
    raise SystemExit(main())
