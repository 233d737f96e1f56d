#!/usr/bin/env python3
"""Turns proofs of an older Rattle (proofs/F/Proof.antt, over positions) into today's (Invariants.antt and Answers.antt, over names).

usage: python3 tools/turn_proofs.py COMMIT NAMES CRATE        at the top of the repository

COMMIT is one in which the crate's Proof.antt files stand, with port.py and tools/respell.py run over them. NAMES is the folder that
`rt check --generated NAMES --old-names` wrote in the crate's folder. Files that stand there are written over; a function in a cycle
of calls (proofs/+F) is left out. What is turned:

- an invariant over positional parameters, to one over `l.x`, `l.initial.x`;
- a need by its old name, to the goal's; answers that the check finds by itself are left out;
- a path `c.before.before.step.field`, to `c.step.field` with the step's name of today;
- a callee's clauses by position, to their names, and a tuple for several clauses, to a record.

Branches that join (`⊎_elim .. c.if1.branch`) want `elim .. [ then-x w ↦ .. ]`, by hand. Needs that are gone are told on standard output.
"""

import json
import os
import re
import subprocess
import sys

FOUND_ALONE = ("search rules", "cc", "omega arith")
MADE = re.compile(r"\.(Statement|Tie|Reads|Lts|Goals|Given)(\.\{| as )|\.Statement\.")
HEAD = re.compile(r"^(?:abbrev |unfoldable |pub |opaque )*(\S+) :( |$)")


def canon(name):
    """One spelling for a need's name in proof files and in NAMES."""
    name = name.replace("_", "-").lower()
    name = re.sub(r"^overflow-(?=(add|sub|mul|shl|shr|cast|neg))", "", name)
    name = re.sub(r"-lem(?=-|$)", "", name)
    return re.sub(r"^slice-bounds-", "part-", name)


def one_line_uses(text):
    lines, open_use = [], None
    for line in text.split("\n"):
        if open_use is not None:
            open_use += " " + line.strip()
            if "}" in line:
                lines.append(open_use)
                open_use = None
        elif line.startswith("use ") and "{" in line and "}" not in line:
            open_use = line
        else:
            lines.append(line)
    return lines


def parts(text):
    """The comment at the head, the uses, and the declarations, each a name and its text."""
    head, uses, found, rest = [], [], [], []
    for line in one_line_uses(text):
        if line.startswith("use "):
            uses.append(line)
        elif line.startswith("--") and not uses and not found:
            head.append(line)
        elif HEAD.match(line) and not line.startswith((" ", "--")):
            above = []
            while rest and rest[-1].startswith("--"):
                above.insert(0, rest.pop())
            if found:
                found[-1][1].extend(rest)
            found.append((HEAD.match(line).group(1), above + [line]))
            rest = []
        else:
            rest.append(line)
            if found and not line.startswith("--") and line.strip():
                found[-1][1].extend(rest)
                rest = []
    if found:
        found[-1][1].extend(rest)
    return head, uses, [(name, "\n".join(lines).strip("\n")) for name, lines in found]


def at_commas(text):
    depth, start, found = 0, 0, []
    for i, c in enumerate(text):
        depth += (c in "([{") - (c in ")]}")
        if c == "," and depth == 0:
            found.append(text[start:i].strip())
            start = i + 1
    last = text[start:].strip()
    return found + [last] if last else found


def of_tuple(text, n):
    """The n parts of `(a, (b, c))`, or None."""
    text = text.strip()
    if n == 1:
        return [text]
    if not (text.startswith("(") and text.endswith(")")):
        return None
    depth = 0
    for i, c in enumerate(text):
        depth += (c in "([{") - (c in ")]}")
        if depth == 0 and i < len(text) - 1:
            return None
    found = at_commas(text[1:-1])
    if len(found) == n:
        return found
    if len(found) == 2:
        more = of_tuple(found[1], n - 1)
        return [found[0]] + more if more else None
    return None


def nested(names):
    return names[0] if len(names) == 1 else f"({names[0]}, {nested(names[1:])})"


def by_clause(path, clauses):
    """A path into nested pairs, `1.0.x`, as one by the clauses' names, `within.x`."""
    text = "".join("." + it for it in path)
    places = [".1" * i + (".0" if i < len(clauses) - 1 else "") for i in range(len(clauses))]
    for name, place in sorted(zip(clauses, places), key=lambda it: -len(it[1])):
        if (text + ".").startswith(place + "."):
            return [name] + [it for it in text[len(place) :].split(".") if it]
    return path


class Names:
    """What NAMES says of one function: its goals and steps, old and new."""

    def __init__(self, said):
        self.goals = {canon(old): new for old, new in said["needs"]}
        self.asked = {canon(old): it for old, it in said["asked"].items()}
        self.loops = {canon(old): (new, names, changed) for ((old, new), names), changed in zip(said["loops"], said["changed"])}
        self.own = (said.get("pre") or {}).get("fields") or []
        self.steps, self.typed, self.fields, self.clauses, self.arms, self.lent = {}, {}, {}, {}, {}, {}
        for at, (_, _, (old, new), callee, fields) in enumerate(said["places"]):
            step = canon(old)
            self.steps[step] = new
            if callee in said["params"]:
                self.lent[step] = said["params"][callee]
            self.fields.update({(step, was): now for was, now in fields})
            for name, was, path in (said["arms"][at] or [None, None, []])[2]:
                if path:
                    self.arms.setdefault(canon(was), []).append((path, said["arms"][at][0], name))
            clauses = (said["clauses"][at] or {}).get("fields") or []
            if len(clauses) > 1:
                self.clauses[step] = clauses
            for name, was in said["typed"][at]:
                self.typed.setdefault(canon(was), name)

    def path(self, root, rest):
        """A path from `root`, which is a place of the code, behind the steps `before`."""
        step, more = canon(rest[0]), rest[1:]
        if step in ("pre", "requires"):
            return ".".join([root, "requires"] + (by_clause(more, self.own) if len(self.own) > 1 else more))
        if step == "well-formed":
            return ".".join([root, "well_formed"] + more)
        if step in ("args", "ranges"):
            return ".".join([root] + rest)
        if step in self.typed and more[:1] == ["given"]:
            return ".".join([root, "type_inv", self.typed[step]] + more[1:])
        for path, new, name in self.arms.get(step, []):
            if more[: len(path)] == path:
                return ".".join([root, new, name] + more[len(path) :])
        if step not in self.steps:
            return ".".join([root] + rest)
        new = self.steps[step]
        if more[:1] == ["auto"] and step in self.lent:
            ones = len(more) - 1 - len("".join(more[1:]).lstrip("1"))
            if more[1 + ones : 2 + ones] == ["0"] and ones < len(self.lent[step]):
                return ".".join([root, new, "auto", self.lent[step][ones]] + more[2 + ones :])
        if step.startswith("match") and more[:1] == ["rest"]:
            return ".".join([root, new, new + "-own"] + more)
        if more and (step, more[0]) in self.fields:
            more = [self.fields[step, more[0]]]
        elif more == ["ensures"] and step in self.clauses:
            return nested([f"{root}.{new}.ensures.{it}" for it in self.clauses[step]])
        elif more[:1] == ["ensures"] and step in self.clauses:
            more = ["ensures"] + by_clause(more[1:], self.clauses[step])
        return ".".join([root, new] + more)


def places_of(body, first, names):
    """The variables of a body that stand for a place (`let p = c.before in`), and those that stand for a step, with it."""
    places, steps = {first}, {}
    for _ in range(3):
        for m in re.finditer(r"let ([\w'₀-₉-]+) = ([A-Za-z_][\w-]*)((?:\.[\w'*+-]+)*)\s+in", body):
            path = [it for it in m.group(3).split(".") if it]
            while path and path[0] == "before":
                path = path[1:]
            if m.group(2) in places and not path:
                places.add(m.group(1))
            elif m.group(2) in places and len(path) == 1 and canon(path[0]) in names.steps:
                steps[m.group(1)] = path[0]
    return places, steps


def turned_paths(body, first, names):
    places, steps = places_of(body, first, names)

    def turned(m):
        whole, (root, *path) = m.group(0), m.group(0).split(".")
        behind = list(path)
        while behind and behind[0] == "before":
            behind = behind[1:]
        if root in steps and path:
            if path == ["ensures"] and canon(steps[root]) in names.clauses:
                return nested([f"{root}.ensures.{it}" for it in names.clauses[canon(steps[root])]])
            step, long = names.path("c", [steps[root]]), names.path("c", [steps[root]] + path)
            return root + long[len(step) :] if long.startswith(step) else whole
        if root not in places:
            return whole
        return names.path(root, behind) if behind else root

    return re.sub(r"(?<![\w.'-])([A-Za-z_][\w'₀-₉-]*)((?:\.[\w'*+-]+)+)", turned, body)


def comments(text):
    return "".join(line + "\n" for line in text.split("\n") if line.startswith("--"))


def unfoldings(text):
    return "".join("\n" + it for it in re.findall(r"^unfolding .*$", text, re.M))


def invariant(kind, loop, name, text):
    new, variables, changed = loop
    clause = re.search(rf"^{re.escape(name)} (.*?)=(?!=)", text, re.M | re.S)
    now = [("l.initial." if it else "l.") + x for x, it in zip(variables, changed)] + ["l." + x for x, it in zip(variables, changed) if it]
    means = {old: it for old, it in zip(clause.group(1).split(), now) if old != "_"}
    body = re.sub(r"(?<![\w.'₀-₉])[A-Za-zκμ_][\w'₀-₉]*(?:-[\w'₀-₉]+)*", lambda m: means.get(m.group(0), m.group(0)), text[clause.end() :])
    return f"{comments(text)}abbrev pub {kind}-{new} : goal.{kind}-{new}{unfoldings(text)}\n{kind}-{new} l ={body}"


def as_record(body, clauses):
    where = re.search(r"\n  where\b", body)
    body, behind = (body[: where.start()], body[where.start() :]) if where else (body, "")
    cut = max([0] + [m.end() for m in re.finditer(r" in(?:\n| (?=\())", body)])
    found = of_tuple(body[cut:], len(clauses))
    if found:
        body = body[:cut] + " record { " + "; ".join(f"{a} = {b}" for a, b in zip(clauses, found)) + " }"
    return body + behind


def answer(need, name, text, names):
    clause = re.search(rf"^{re.escape(name)}((?: [^=\n]*)?) =(?!=)", text, re.M)
    arguments, body, unfolding = clause.group(1).split(), text[clause.end() :], unfoldings(text)
    if body.strip() in FOUND_ALONE and not unfolding:
        return None
    body = turned_paths(body, arguments[0] if arguments else "c", names)
    if names.asked.get(need):
        body = as_record(body, names.asked[need])
    new = names.goals[need]
    left = " ".join([new] + [it for it in arguments if it != "κs"])
    return f"{comments(text)}pub {new} : goal.{new}{unfolding}\n{left} ={body}"


def turn(text, module, names):
    """The texts of Invariants.antt and Answers.antt, and the needs that are gone."""
    head, uses, found = parts(text)
    invariants, answers, gone = [], [], []
    for name, it in found:
        kind = re.search(r"^(?:abbrev |pub |unfoldable )*\S+ : tie\.(\S+)", it, re.M)
        kind = kind.group(1) if kind else ""
        if kind.startswith(("invariant-", "decreases-")):
            word, loop = kind.split("-", 1)
            invariants.append(invariant(word, names.loops[canon(loop)], name, it))
        elif kind.startswith("Need-"):
            need = canon(kind[5:])
            if need in names.goals:
                answers.append(answer(need, name, it, names))
            else:
                gone.append(need)
        elif not re.search(r"tie\.close|statement M", it):
            answers.append(it)
    top = "\n".join(head + [it for it in uses if not MADE.search(it)])
    whole = lambda made, of: f"{top}\nuse {module}.{of} as goal\n\n" + "\n\n".join(made) + "\n" if made else None
    return whole(invariants, "Given"), whole([it for it in answers if it], "Goals"), gone


def main(commit, folder, crate):
    with open(f"{folder}/names.json", encoding="utf-8") as f:
        said = json.load(f)
    git = lambda *words: subprocess.run(["git", *words], capture_output=True, text=True, check=True).stdout
    for path in git("ls-tree", "-r", "--name-only", commit, f"crates/{crate}/proofs").split():
        at = os.path.dirname(path)
        function = os.path.relpath(at, f"crates/{crate}/proofs").replace("/", ".")
        key = f"Rattle-{crate}-proofs.{function}.Lts"
        if not path.endswith("/Proof.antt") or key not in said:
            continue
        made = turn(git("show", f"{commit}:{path}"), f"Rattle.{crate}.proofs.{function}", Names(said[key]))
        os.makedirs(at, exist_ok=True)
        for name, text in zip(("Invariants", "Answers"), made):
            if os.path.exists(f"{at}/{name}.antt"):
                os.remove(f"{at}/{name}.antt")
            if text:
                with open(f"{at}/{name}.antt", "w", encoding="utf-8") as f:
                    f.write(text)
        if os.path.exists(path):
            os.remove(path)
        if made[2]:
            print(crate, function, "gone:", *made[2])


if __name__ == "__main__":
    if len(sys.argv) != 4:
        sys.exit(__doc__)
    main(*sys.argv[1:])
