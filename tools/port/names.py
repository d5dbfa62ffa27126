#!/usr/bin/env python3
"""Brings this repository's own definitions and lemmas to snake case.

usage: tools/port/names.py [--nested [OLDER]] [--check]     at the top: once right after tools/port/spelling, and then with --nested,
                                                            which takes the names that stand deeper in sections and where-blocks;
                                                            OLDER is a folder crates/ from which it takes the names in place of this one's

A name that a file of specs/ or proofs/ declares, a field or a constructor among them, gets `_` for each of its dashes and before each
of its capitals, as `work_in` for `workIn` and `byte_small` for `byte-small`. Types keep their spelling, and so do functions of src/,
the names that the check makes (the goals that a Proof.antt answers) and, with --nested, what some file brings in from a library. (Without,
the library's `not-true` and `not-false` get `_` too, since sessions has lemmas of these names: three imports to mend by hand.) Of two names
that fall together, in whichever crates, the lemma gets `_lem`. It prints each pair of names that it tells apart so.
"""

import os
import re
import sys

DEEP = 12 if "--nested" in sys.argv else 4
DECLARED = re.compile(r"^ {0,%d}(?:(?:abbrev|unfoldable) )?(?:pub )?(?:(?:record|data) )?([^\s:(){};,=.]+)(?: [({«a-z].*)?\s*:(?= |$)" % DEEP)
GOAL = re.compile(r"^(?:pub )?(\S+) : (?:tie|goal)\.", re.M)
WORD = re.compile(r"(?:(?<=[\s(){};,.◌«»])|^)([^\s(){};,.◌«»]+)", re.M)
GHOST = re.compile(r"ghost use [^;]*;|\b(?:requires|ensures|ghost)\*?(?: [a-z_0-9]+:?)? \{|//[^\n]*")


# Local names that a definition of the new spelling would fall on, with what they are called in that file.
APART = {
    "agent/proofs/Planned.antt": {"at_room": "at_room_lem"},
    "agent/proofs/Promised.antt": {"too_long": "too_long_lem"},
    "agent/proofs/SquareRun.antt": {"goes_on": "goes_on_lem"},
    "agent/proofs/SquareRebuilt.antt": {"goes_on": "goes_on_lem"},
    "sessions/proofs/limits/Laws.antt": {"slot_kept": "slot_kept_lem", "store_kept": "store_kept_lem"},
    "sessions/proofs/limits/rows_within/Proof.antt": {"slot_kept": "slot_kept_lem", "store_kept": "store_kept_lem"},
    "sessions/proofs/Calls.antt": {"slot_kept": "slot_kept_lem", "store_kept": "store_kept_lem"},
}


def snake(name):
    spaced = re.sub(r"(?<=[a-z0-9])(?=[A-Z])", "_", name)
    return re.sub(r"-", "_", spaced).lower() if name[0].islower() else name


def files(top, ends):
    for folder, dirs, names in os.walk(top):
        dirs[:] = sorted(d for d in dirs if d != "out")
        for name in sorted(names):
            if name.endswith(ends):
                yield os.path.join(folder, name)


def text_of(path):
    with open(path, encoding="utf-8") as f:
        return f.read()


def declared_in(text):
    found, inside = [], False
    for line in text.split("\n"):
        at = DECLARED.match(line)
        if at and not line.lstrip().startswith(("--", "use ", "mod ", "pub mod ", "let ", "in ", "λ")):
            found.append(at[1])
    return found


def own_names(top):
    """The declared names whose spelling changes, each with the crates and files that declare it."""
    found = {}
    for path in files(top, ".antt"):
        text = text_of(path)
        goals = set(GOAL.findall(text))
        for name in declared_in(text):
            if name not in goals and snake(name) != name and re.fullmatch(r"[a-z][\w'′-]*", name):
                found.setdefault(name, set()).add(path)
    return found


def kept_names(top):
    """The names that are declared in the new spelling already, with their files."""
    found = {}
    for path in files(top, ".antt"):
        text = text_of(path)
        goals = set(GOAL.findall(text))
        for name in declared_in(text):
            if name not in goals and snake(name) == name:
                found.setdefault(name, set()).add(path)
    return found


def library_names(top):
    """The names that some file brings in from a library that isn't of this repository."""
    own = "|".join(os.listdir(top))
    found = set()
    for path in files(top, ".antt"):
        for module, names in re.findall(r"^use ([^\s{]+)\.\{([^}]*)\}", text_of(path), re.M):
            if not re.match(rf"Rattle\.(?:{own})\.", module):
                found.update(it.strip().split(" as ")[0] for it in names.split(","))
    return found


def crate_of(path):
    return re.search(r"crates/(\w+)/", path)[1]


def new_names(top):
    own, kept = own_names(top), kept_names(top)
    taken = {}
    for name, paths in kept.items():
        taken.setdefault(name, {})[name] = paths
    for name, paths in own.items():
        taken.setdefault(snake(name), {})[name] = paths
    new, said = {}, []
    for name in own:
        rivals = taken[snake(name)]
        others = {c for it, ps in rivals.items() if it != name for c in map(crate_of, ps)}
        if any("/specs/" in it for it in paths):
            # What a reader must believe keeps its plain name, but beside another of its own crate.
            others &= {crate_of(it) for it in paths}
        # A definition keeps the plain name, and the lemma on it gets the ending.
        is_lemma = "-" in name and not re.search(r"[a-z][A-Z]", name)
        if others and is_lemma:
            new[name] = snake(name) + "_lem"
            said.append(f"{name}: {new[name]}, beside {', '.join(sorted(it for it in rivals if it != name))}")
        else:
            new[name] = snake(name)
            if others and any(not ("-" in it) and it != name for it in rivals):
                said.append(f"look: {name} and {', '.join(sorted(it for it in rivals if it != name))} fall together")
    return new, said


def turned(text, new, left=()):
    def put(at):
        return new[at[1]] if at[1] in new and at[1] not in left else at[1]

    return WORD.sub(put, text)


def turn_antt(path, new):
    text = text_of(path)
    goals = set(GOAL.findall(text))
    if re.search(r"/(Answers|Invariants|Proof)\.antt$", path) and " as goal" in text:
        # Among the names that the check makes only what the file brings in or declares is this repository's.
        brought = set(re.findall(r"[^\s{},]+", " ".join(re.findall(r"^use [^{\n]*\{([^}]*)\}", text, re.M))))
        new = {old: now for old, now in new.items() if old in brought or old in declared_in(text)}
    for end, apart in APART.items():
        if path.endswith(end) and "--nested" not in sys.argv:
            new = {**new, **apart}
    out = []
    for line in text.split("\n"):
        code, mark, note = line.partition("-- ") if not line.startswith("--") else ("", "", line)
        words = turned(code, new, goals) if code else code
        # In a comment a name stands in backquotes.
        note = re.sub(r"`([^`\s]+)`", lambda at: "`" + turned(at[1], new, goals) + "`", note)
        out.append(words + mark + note)
    return "\n".join(out)


def turn_rt(path, new):
    text, out, at = text_of(path), [], 0
    while True:
        found = GHOST.search(text, at)
        if not found:
            return "".join(out) + text[at:]
        out.append(text[at : found.start()])
        end = found.end()
        part = found[0]
        if part.startswith("//"):
            out.append(re.sub(r"`([^`\s]+)`", lambda it: "`" + turned(it[1], new) + "`", part))
        else:
            if part.endswith("{"):
                depth = 1
                while depth:
                    depth += {"{": 1, "}": -1}.get(text[end], 0)
                    end += 1
            out.append(turned(text[found.start() : end], new))
        at = end


# Names of isolation's claim, and one of the agent's specs/, that stand beside others of another crate alone: they stay plain.
PLAIN = {
    "isolation": ["host_call", "status_at", "set_up", "call_of", "replies_of", "in_turn"],
    "agent": ["host_call", "status_at", "set_up", "call_of", "replies_of", "topic_named"],
}


def made_plain(top):
    for crate, names in PLAIN.items():
        words = "|".join(names)
        for path in files(os.path.join(top, crate), ".antt"):
            old = text_of(path)
            now = re.sub(rf"(?<![\w'-])({words})_lem(?![\w'-])", r"\1", old)
            if now != old:
                with open(path, "w", encoding="utf-8") as f:
                    f.write(now)


def aliases_apart(top):
    """The short name of an enum's variants has a dash, since a definition may have that name with `_`."""
    for path in files(top, ".antt"):
        old = now = text_of(path)
        for alias in re.findall(r"TheVariants as (\w+_\w+)$", old, re.M):
            dashed = re.sub(r"_lem$", "", alias).replace("_", "-")
            now = re.sub(rf"TheVariants as {alias}$", f"TheVariants as {dashed}", now, flags=re.M)
            now = re.sub(rf"(?<![\w.'-]){alias}\.(?=[A-Z])", f"{dashed}.", now)
        if now != old:
            with open(path, "w", encoding="utf-8") as f:
                f.write(now)


def main():
    top = os.path.join(os.path.dirname(os.path.abspath(__file__)), "..", "..", "crates")
    top = os.path.normpath(top)
    from_here = [it for it in sys.argv[1:] if not it.startswith("--")]
    new, said = new_names(from_here[0] if from_here else top)
    if "--nested" in sys.argv:
        for name in library_names(top):
            new.pop(name, None)
    print("\n".join(said))
    print(f"{len(new)} names")
    if "--check" in sys.argv:
        return
    for path in list(files(top, (".antt", ".rt"))):
        old = text_of(path)
        now = turn_antt(path, new) if path.endswith(".antt") else turn_rt(path, new)
        if now != old:
            with open(path, "w", encoding="utf-8") as f:
                f.write(now)
    if "--nested" not in sys.argv:
        aliases_apart(top)
        made_plain(top)


main()
