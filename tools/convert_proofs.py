#!/usr/bin/env python3
"""Turns the Proof.antt files of a crate to Invariants.antt and Answers.antt, by the names that `rt check --old-names` gives.

usage: tools/convert_proofs.py CRATE [OLD]      at the top of the repository; the crates below CRATE are proved

OLD is a checkout of the commit before the port (default /work/old/landed), whose files say which goal each answer was for. An answer that
is `search rules` alone goes, since the check tries that itself. What the script cannot place stands at the file's end behind `-- left:`.
"""
import json
import os
import re
import subprocess
import sys

WORD = r"[^\s(){}.;,@\"«»⌜⌝]+"
TOKEN = re.compile(WORD)
PATH = re.compile(rf"(?<![^\s(){{}};,«»])({WORD})((?:\.{WORD})+)|(?<=\))((?:\.{WORD})+)")
HEAD = re.compile(r"^(?:use |--)")
WORDS = {"pre": "requires", "good": "well_formed", "well-formed": "well_formed", "inv": "invariant", "taken": "true", "left": "false", "last": "new", "fits": "ranges", "came": "branch", "type-inv": "type_inv"}
FIELDS = {"kept", "result", "ensures", "requires", "new", "auto", "given", "true", "false", "invariant", "is", "branch", "type_inv"}


def plain(name):
    """A goal's or a step's name without the difference between a dash and an underscore, by its words of the kit before this one."""
    name = name.replace("_", "-")
    name = re.sub(r"^(.*loop\d*)-holds(-\d+)?$", r"\1-init\2", name)
    name = re.sub(r"^(.*loop\d*)-less(-\d+)?$", r"\1-smaller\2", name)
    return re.sub(r"^(.*loop\d*)-again(-\d+)?$", r"\1-preserved\2", name)


def names_of(crate):
    out = f"/tmp/names-{crate}"
    subprocess.run(["rm", "-rf", out])
    said = subprocess.run(["rt", "check", "--generated", out, "--old-names"], cwd=f"crates/{crate}", capture_output=True, text=True)
    path = os.path.join(out, "names.json")
    if not os.path.exists(path):
        sys.exit(f"no names for {crate}: {said.stdout[-2000:]}{said.stderr[-2000:]}")
    with open(path) as f:
        return json.load(f)


def pieces_of(text):
    """The file's top-level pieces, parted at blank lines; an indented part goes on with the one before it."""
    out = []
    for part in re.split(r"(?<=\n)\n+", text):
        if out and part[:1].isspace() and part.strip():
            out[-1] += "\n" + part
        elif part.strip():
            out.append(part if part.endswith("\n") else part + "\n")
    return out


class Function:
    def __init__(self, crate, function, entry, old_root, said):
        self.crate, self.function, self.entry, self.said = crate, function, entry, said
        self.folder = f"crates/{crate}/proofs/{function}"
        self.module = f"Rattle.{crate}.proofs.{function.replace('/', '.')}"
        with open(f"{self.folder}/Proof.antt") as f:
            self.text = f.read()
        with open(f"{old_root}/{self.folder}/Proof.antt") as f:
            self.old_text = f.read()
        self.needs = {plain(o): n for o, n in entry["needs"]}
        self.labels, self.places, self.fields, self.clauses, self.params, self.parents = {}, {}, {}, {}, {}, {}
        self.pre = (entry["pre"] or {}).get("fields")
        for k, (place, new) in enumerate(zip(entry["places"], entry["places_by_name"])):
            name, _, (old, now), callee, renames = place[:5]
            if old and entry["clauses"][k]:
                self.clauses[plain(old)] = entry["clauses"][k]["fields"]
            if old and callee in entry["params"]:
                self.params[plain(old)] = entry["params"][callee]
            self.places[plain(name)] = new
            if old:
                if self.labels.get(plain(old), now) != now:
                    self.tell(f"the step {old} is {self.labels[plain(old)]} and {now}")
                self.labels[plain(old)] = now
                self.fields.setdefault(plain(old), {}).update({plain(a): b for a, b in renames})
            self.parents[plain(name)] = plain(place[1]) if place[1] else None
        self.old_steps = set()
        for k, (place, _) in enumerate(zip(entry["places"], entry["places_by_name"])):
            if place[2][0] and entry["clauses"][k]:
                self.old_steps |= {place[2][0], place[2][0].replace("_", "-")}
        self.asked_at = {}
        for (old, _), (at, _) in zip(entry["needs"], entry["asked_at"]):
            self.asked_at[plain(old)] = plain(at)
        self.arms = {}
        for arm in entry["arms"]:
            for new, old, way in (arm[2] if arm else []):
                self.arms.setdefault(plain(old), {})[tuple(way)] = [arm[0], new]
        self.used = set()
        self.widths = False
        self.helpers, self.contexts, self.asked = {}, {}, {}
        self.arguments = self.parameters()

    def parameters(self):
        """The function's parameters, by its source."""
        *modules, name = self.function.replace("+", "").split("/")
        path = f"crates/{self.crate}/src/{'/'.join(modules) if modules else 'lib'}.rt"
        if not os.path.exists(path):
            return []
        with open(path) as f:
            text = f.read()
        m = re.search(rf"(?m)^(?:pub )?fn {re.escape(name)}(?:<[^>]*>)?\(", text)
        if not m:
            return []
        inner = text[m.end():self.group(text, m.end() - 1) - 1]
        out, depth, part = [], 0, ""
        for ch in inner + ",":
            if ch == "," and depth == 0:
                if ":" in part:
                    out.append(part.split(":")[0].replace("mut ", "").strip())
                part = ""
                continue
            depth += (ch in "([<") - (ch in ")]>")
            part += ch
        return out

    def tell(self, text):
        self.said.append(f"{self.function}: {text}")

    def place(self, m):
        new = self.places.get(plain(m[1]))
        if new is None:
            self.tell(f"no place now for {m[1]}")
            return m[0]
        self.used.add(new)
        return new

    def named(self, steps, fields, last_too=False):
        """The first numbers of a path over clauses, or parameters, as the name that they reach."""
        k = 0
        while k < len(steps) and steps[k] == "1" and k < len(fields) - (0 if last_too else 1):
            k += 1
        if k >= len(fields):
            return steps
        if k == len(fields) - 1 and not last_too:
            return [fields[k]] + steps[k:]
        if k < len(steps) and steps[k] == "0":
            return [fields[k]] + steps[k + 1:]
        return steps

    def path(self, m):
        base, steps = (m[1], m[2]) if m[1] else ("", m[3])
        if base[:1].isupper() or base in ("tie", "goal"):
            return m[0]
        lone = not base and steps == ".fits"
        steps = steps[1:].split(".")
        steps = [s if lone or self.is_own(base, steps[:k], s) else WORDS.get(s, s) for k, s in enumerate(steps)]
        for k in range(len(steps)):
            given = re.fullmatch(r"t([1-9]\d*)", steps[k])
            if given and (base if k == 0 else steps[k - 1]) == "args" and int(given[1]) <= len(self.arguments):
                steps[k] = self.arguments[int(given[1]) - 1]
        if base in self.given:
            return base + "." + ".".join(steps)
        if base in self.step_names:
            self.bases.add("c")
            label = "c." + self.labels[self.step_names[base]]
            way = self.steps_of("c", [self.step_names[base]] + steps)
            return base + way.removeprefix(label) if way.startswith(label + ".") else m[0]
        return self.steps_of(base, steps)

    def is_own(self, base, before, word):
        """Is a word of the kit here a name of the source, a parameter's, a field's or a variable's?"""
        last = before[-1] if before else base
        if {"args", "fits", "ranges", "result"} & set(before) or last == "args" or not before and base in self.given:
            return True
        if re.fullmatch(r"loop\d*", last):
            return word not in ("inv", "came")
        return word == "last" and bool(re.fullmatch(r"(?:if|match)\d*", last))

    def steps_of(self, base, steps):
        out, k = [], 0
        while k < len(steps):
            if steps[k] == "before" and k + 1 < len(steps) and any(s != "before" for s in steps[k:]):
                k += 1
                continue
            step = plain(steps[k])
            told = steps[k + 1] if k + 1 < len(steps) else ""
            way = next((w for w in sorted(self.arms.get(step, {}), key=len, reverse=True) if w and tuple(steps[k + 1:k + 1 + len(w)]) == w), None)
            if way and (base in self.bases or not base):
                out += self.arms[step][way]
                k += 1 + len(way)
            elif step in self.labels and (told in FIELDS or step not in FIELDS and (base in self.bases or not base and step.startswith(("loop", "if")))):
                out.append(self.labels[step])
                k += 1
                if k < len(steps):
                    field = self.fields[step].get(plain(steps[k]), steps[k])
                    field = "auto" if field == "kept" else field
                    field = {"type-inv": "type_inv", "ok": "type_inv", "kept": "auto"}.get(field, field)
                    out.append(field)
                    k += 1
                    if field == "ensures" and step in self.clauses:
                        out += self.named(steps[k:], self.clauses[step])
                        break
                    if field in ("new", "auto") and step in self.params:
                        out += self.named(steps[k:], self.params[step], True)
                        break
            else:
                out.append(steps[k])
                k += 1
                if out[-1] == "requires" and self.pre:
                    out += self.named(steps[k:], self.pre)
                    break
            out += steps[k:]
            break
        return base + "." + ".".join(out)

    def inlined(self, text):
        """A `let` of clauses, or of a call, goes, and what it named stands in its places, so that their numbers can be read."""
        steps = "|".join(re.escape(o) for o in sorted(self.old_steps, key=len, reverse=True))
        ends = r"(?:requires|ensures|new|auto)(?:\.[01])*" + (f"|(?:{steps})" if steps else "")
        while m := re.search(rf"(?m)let ({WORD}) = ({WORD}(?:\.{WORD})*\.(?:{ends})) in[ \n]", text):
            if len(re.findall(rf"(?:let|λ) {re.escape(m[1])}\b", text)) > 1:
                self.tell(f"`{m[1]}` is bound twice")
                break
            rest = re.sub(rf"(?<![^\s(){{}};,«»]){re.escape(m[1])}(?![^\s(){{}}.;,«»]| = )", m[2], text[m.end():])
            text = text[:m.start()] + rest.lstrip()
        return text

    def learn(self, pieces):
        """The place that each helper's first context is."""
        for piece in pieces:
            section = re.match(rf"(?:--.*\n)*module _ \(({WORD}) : tie\.([A-Z][\w'-]*)", piece)
            if section:
                for name in re.findall(rf"(?m)^  (?:abbrev |pub )*({WORD}) :", piece):
                    self.helpers[name] = plain(section[2])
            for name, place in re.findall(rf"(?m)^(?:abbrev |pub )*({WORD}) : \({WORD} : tie\.([A-Z][\w'-]*)", piece):
                self.helpers[name] = plain(place)
            for name, place, target in re.findall(rf"(?m)^(?:abbrev |pub )*({WORD}) : (?:\({WORD} : )?tie\.([A-Z][\w'-]*)\)? → tie\.([A-Z][\w'-]*)$", piece):
                self.helpers[name], self.contexts[name] = plain(place), plain(target)

        for name, place in re.findall(rf"(?m)^ *(?:abbrev |pub )*({WORD}) : tie\.([A-Z][\w'-]*)[^→\n]*$", "\n".join(pieces)):
            if not place.startswith("Need"):
                self.contexts[name] = plain(place)

    def depth(self, place, target):
        n = 0
        while place is not None and place != target:
            place, n = self.parents.get(place), n + 1
        return n if place == target else None

    def up(self, base, env, target):
        """The record of the place `target` that the context `base` goes past."""
        if env[base] == target:
            return base
        self.used.add(self.places[target])
        at = self.asked.get(base, self.places[env[base]])
        if at not in self.asked.values():
            self.used.add(at)
        return f"(goal.at.{at} {base}).{self.places[target]}"

    def deepened(self, text, env):
        """Contexts that are handed on, or named by a `let`, as the records of the outer places."""
        for name in list(env):
            if env[name] is None:
                del env[name]
        def named(m):
            name, base = m[2], m[3]
            target = self.contexts.get(name)
            if target not in self.places or base not in env or self.depth(env[base], target) is None:
                return m[0]
            return f"{m[1]}{name} = {self.up(base, env, target)}"
        text = re.sub(rf"(?m)^( *)({WORD}) = ({WORD})(?:\.before)+$", named, text)
        def taken(m):
            if m[1] not in self.contexts or self.helpers.get(m[1]) is None or m[2] != m[3]:
                return m[0]
            return f"{m[1]} {m[2]} = {self.up(m[2], {m[2]: self.helpers[m[1]]}, self.contexts[m[1]])}"
        text = re.sub(rf"(?m)^({WORD}) ({WORD}) = ({WORD})(?:\.before)+$", taken, text)
        for name, made in re.findall(rf"let ({WORD}) = ({WORD}) {WORD}(?:\.before)* in[ \n]", text):
            if made in self.contexts:
                env[name] = self.contexts[made]
        seen = set()
        while m := next((m for m in re.finditer(rf"let ({WORD}) = ({WORD})((?:\.before)+) in[ \n]", text) if m.start() not in seen), None):
            name, base = m[1], m[2]
            if base not in env or len(re.findall(rf"(?:let|λ) {re.escape(name)}(?![^\s(){{}}.;,«»])", text)) > 1:
                seen.add(m.start())
                continue
            targets = {self.helpers[h] for h, b in re.findall(rf"(?<![^\s(){{}};,«»])({WORD})(?: [a-z])*? {re.escape(name)}((?:\.before)*)(?![^\s(){{}}.;,«»])", text[m.end():]) if h in self.helpers and not b}
            targets = {t for t in targets if self.depth(env[base], t) is not None}
            if len(targets) == 1:
                target = targets.pop()
                deep = self.up(base, env, target)
                env[name] = target
                text = text[:m.start()] + f"let {name} = {deep} in" + text[m.end() - 1:]
                seen.add(m.start())
            else:
                end = r"(?=\.|\)\s*(?:$|\n))" if name == "at" else r"(?![^\s(){}.;,«»]| =)"
                rest = re.sub(rf"(?<![^\s(){{}};,«»]){re.escape(name)}{end}", base, text[m.end():])
                text = text[:m.start()] + rest.lstrip()
        for made, base in re.findall(rf"\(({WORD}) ({WORD})\)(?:\.before)+", text):
            if made in self.contexts and base in env:
                env[f"({made} {base})"] = self.contexts[made]
        def named(m):
            target, base = plain(m[2]), m[4]
            place = env.get(base) or self.contexts.get(base)
            n = self.depth(place, target) if place else None
            return m[0] if n is None else f"{m[1]} : tie.{m[2]}{m[3]}{m[1]} = {base}" + ".before" * n
        text = re.sub(rf"(?<![^\s(])({WORD}) : tie\.([A-Z][\w'-]*)(\n +)\1 = ({WORD})(?:\.before)*(?=\n|$)", named, text)

        def handed(m):
            helper, base = m[1], m[2]
            if helper not in self.helpers or base not in env:
                return m[0]
            n = self.depth(env[base], self.helpers[helper])
            if n is None:
                self.tell(f"{helper} is at {self.helpers[helper]}, not before {env[base]}")
                return m[0]
            return f"{helper} {self.up(base, env, self.helpers[helper])}"
        if not self.helpers:
            return text
        helper = "|".join(sorted(map(re.escape, self.helpers), key=len, reverse=True))
        text = re.sub(rf"(?<![^\s(){{}};,«»])({helper})\n +({WORD}(?:\.before)+\))", r"\1 \2", text)
        return re.sub(rf"(?<![^\s(){{}};,«»])({helper}) ({WORD}|\({WORD} {WORD}\))((?:\.before)*)(?![^\s(){{}};,«»])", handed, text)

    def joined(self, text):
        """Cases on how branches joined, by the names of today's constructors."""
        while m := re.search(r"⊎_elim\s+\(", text):
            k = text.index("(", m.start())
            first = self.group(text, k)
            gap = re.match(r"\s*", text[first:]).end()
            if text[first + gap:first + gap + 1] != "(":
                break
            second = self.group(text, first + gap)
            after = re.match(rf"\s*\(?({WORD}(?:\.{WORD})*)\.(?:came|branch)\)?", text[second:])
            one, two = text[k + 1:first - 1], text[first + gap + 1:second - 1]
            a, b = re.match(rf"λ ({WORD})\. ?", one), re.match(rf"λ ({WORD})\. ?", two)
            if not after or not a or not b:
                text = text[:m.start()] + "⊎_ELIM" + text[m.start() + 6:]
                continue
            step = plain(after[1].split(".")[-1])
            label = self.labels.get(step, after[1].split(".")[-1])
            then, other = "then-" + label.removeprefix("if-"), "else-" + label.removeprefix("if-")
            self.used |= {then, other}
            here = {self.fields.get(step, {}).get(plain(f), f) for k, f in re.findall(rf"\.({WORD})(?=\.({WORD}))", self.text) if plain(k) == step}
            here -= {"came", "branch", "true", "false", "taken", "left"}
            given = f"{here.pop()}-is" if len(here) == 1 else "1"

            def turn(v, t):
                name = rf"(?<![^\s(){{}};,«»]){re.escape(v)}"
                t = re.sub(rf"{name}\.0\.(true|false|taken|left)\b", lambda q: f"{v}.{label}.{WORDS.get(q[1], q[1])}", t)
                return re.sub(rf"{name}\.1(?![^\s(){{}};,«»])", f"{v}.{given}", t)
            path = after[1]
            text = (text[:m.start()] + f"elim {path}.branch [ {then} {a[1]} ↦ {turn(a[1], one[a.end():])} | {other} {b[1]} ↦ {turn(b[1], two[b.end():])} ]" + text[second + after.end():])
        return text.replace("⊎_ELIM", "⊎_elim")

    def group(self, text, k):
        depth = 0
        while True:
            if text[k] in "([{":
                depth += 1
            elif text[k] in ")]}":
                depth -= 1
                if depth == 0:
                    return k + 1
            k += 1

    def turned(self, text, env=None):
        text = self.inlined(text)
        env = dict(env or {})
        for name, place in re.findall(rf"\(({WORD}) : tie\.([A-Z][\w'-]*)", text):
            env.setdefault(name, plain(place))
        for name, place in self.contexts.items():
            if re.search(rf"(?m)^ +(?:abbrev |pub )*{re.escape(name)} : tie", text) or not re.search(rf"(?<![^\s(){{}};,«»]){re.escape(name)} ", text):
                env.setdefault(name, place)
        text = self.joined(text)
        text = self.deepened(text, env)
        self.given = set(re.findall(rf"let ({WORD}) = [^\s]*\.(?:args|fits|ranges|result) in", text))
        self.given |= set(re.findall(rf"let ({WORD}) = \({WORD} {WORD}\)\.(?:args|fits|ranges|result) in", text))
        self.step_names = {}
        for name, step in re.findall(rf"let ({WORD}) = {WORD}(?:\.before)*\.({WORD}) in", text):
            if plain(step) in self.labels and len(re.findall(rf"(?:let|λ) {re.escape(name)}(?![^\s(){{}}.;,«»])", text)) == 1:
                self.step_names[name] = plain(step)
        self.bases = {"c"} | set(env) | set(self.contexts) | set(re.findall(rf"\(({WORD}) : tie\.", text))
        self.bases |= set(re.findall(rf"let ({WORD}) = {WORD}(?:\.before)+ in", text))
        text = re.sub(rf"\btie\.([A-Z][\w'-]*)((?: (?:invariant|decreases)-{WORD})*)", lambda m: m[0] if m[1].startswith("Need") else self.place(m), text)
        text = "".join(l if l.startswith(("use ", "--")) else PATH.sub(self.path, l) for l in text.splitlines(keepends=True))
        return re.sub(rf"not-(?:true|false) _ ({WORD}(?:\.{WORD})*\.(?:true|false))-raw(?![^\s(){{}}.;,«»])", r"\1", text)

    def convert(self):
        goals = re.findall(rf"\.Need-({WORD})", self.old_text)
        if len(goals) != len(re.findall(rf"\.Need-{WORD}", self.text)):
            self.tell("the goals before and now are not as many")
            return
        head, body, invariants, left, answers = [], [], [], [], []
        at = 0
        pieces = pieces_of(self.text)
        self.learn(pieces)
        for piece in pieces:
            lines = piece.splitlines(keepends=True)
            first = next((l for l in lines if not l.startswith("--")), "")
            if HEAD.match(piece) and (not first or first.startswith("use ")):
                uses = [l for l in lines if HEAD.match(l)]
                head += uses
                if len(uses) < len(lines):
                    body.append("".join(l for l in lines if not HEAD.match(l)))
                continue
            if re.match(rf"pub {WORD} : \{{M : Type 1\}}", first):
                continue
            kind = re.match(rf"abbrev ({WORD}) : tie\.(invariant|decreases)-({WORD})", first)
            if kind:
                invariants.append((kind[1], kind[2], kind[3], piece))
                continue
            goal = re.match(rf"({WORD}) : tie\.Need-({WORD})", first)
            if not goal:
                body.append(piece)
                continue
            old = goals[at]
            at += 1
            k = lines.index(first)
            rest = "".join(lines[k + 1:])
            clause = re.search(rf"(?m)^{re.escape(goal[1])}((?:\s+{WORD})*?) =", rest)
            new = self.needs.get(plain(old))
            answer = rest[clause.end():].strip() if clause else None
            if new is None or answer is None:
                if answer not in ("search rules", "omega arith"):
                    left.append(piece)
                    self.tell(f"no goal now for {old}" if answer is not None else f"the answer {goal[1]} is not read")
                continue
            if answer == "search rules" and not rest[:clause.start()].strip():
                continue
            args = " ".join(a for a in clause[1].split() if a != "κs")
            ended = self.recorded(rest[clause.end():], self.entry["asked"].get(old_name := next(o for o, n in self.entry["needs"] if n == new)), old_name)
            rest = rest[:clause.start()] + f"{new} {args} =" + ended
            context = "c" if "c" in args.split() else args.split()[-1] if args else "c"
            self.asked = {context: new}
            answer = self.turned("".join(lines[:k]) + f"pub {new} : goal.{new}\n{rest}", {context: self.asked_at[plain(old)]})
            self.asked = {}
            if "to_z-of_z (" in answer or "of_z-to_z (" in answer:
                answer = re.sub(r"(to_z-of_z|of_z-to_z) \(", r"\1 {w = w64} (", answer)
                self.widths = True
            answers.append(answer)
            body.append(answer)
        self.write(head, body, invariants, left, answers)

    def recorded(self, answer, fields, goal):
        """An answer's last tuple as the record of the clauses that have names now."""
        if not fields or len(fields) < 2:
            return answer
        text = answer.rstrip()
        parts = self.tuple_at_end(text)
        if parts is None:
            self.tell(f"{goal}: no tuple for {', '.join(fields)}")
            return answer
        start, items = parts
        while len(items) < len(fields):
            more = self.tuple_at_end(items[-1])
            if more is None or items[-1][:more[0]].strip():
                break
            items = items[:-1] + more[1]
        if len(items) != len(fields):
            self.tell(f"{goal}: {len(items)} parts for {', '.join(fields)}")
            return answer
        given = [f"{f} = {i.strip()}" for f, i in zip(fields, items)]
        line = text[:start].splitlines()[-1] if text[:start].strip() else ""
        if "\n" not in "".join(given) and len(line) + sum(map(len, given)) + 20 < 110:
            return text[:start] + "record { " + "; ".join(given) + " }\n"
        margin = "\n" + " " * (len(line) - len(line.lstrip()) + 2 or 2)
        return text[:start] + "record {" + "".join(f"{margin}  {g};" for g in given) + margin + "}\n"

    def tuple_at_end(self, text):
        text = text.rstrip()
        if not text.endswith(")"):
            return None
        depth, k = 0, len(text) - 1
        cuts = []
        while k >= 0:
            if text[k] in ")}]":
                depth += 1
            elif text[k] in "({[":
                depth -= 1
                if depth == 0:
                    break
            elif text[k] == "," and depth == 1:
                cuts.append(k)
            k -= 1
        before = text[:k].rstrip()
        if before and not re.search(r"(?:=|\bin|\b(?:rw|simp) (?:[\w-]+(?: at [\w.]+)?|\([^\n]*\)))$", before):
            return None
        cuts = [k] + cuts[::-1] + [len(text) - 1]
        items = [text[a + 1:b] for a, b in zip(cuts, cuts[1:])]
        items = [i for i in items if i.strip()]
        return (k, items) if len(items) > 1 else None

    def write(self, head, body, invariants, left, answers):
        if not re.search(r"\bw(?:8|16|32|128)\b", "".join(body)):
            widened = lambda p: re.sub(r"(?<![^\s(])((?:to_z-of_z|of_z-to_z)(?!\S))(?! *\{)", r"\1 {w = w64}", p)
            answers = [widened(p) for p in answers]
            body = [widened(p) for p in body]
            if "{w = w64}" in "".join(body) and not re.search(r"\{[^}]*\bw64\b", "".join(head)):
                head = head + ["use mir.Syntax.{w64}\n"]
        comment = "".join(l for l in head if l.startswith("--"))
        uses = "".join(l for l in head if l.startswith("use ") and not re.match(rf"use {re.escape(self.module)}\.(Statement\.|Tie as)", l))
        shared = self.shared(body, invariants)
        if invariants:
            parts = [self.public(self.turned(p)) for p in shared] + [self.invariant(*i) for i in invariants]
            text = "\n".join(parts)
            if "of_z" in text and not re.search(r"use mir\.Val\.\{[^}]*\bof_z\b", uses):
                uses_here = uses + "use mir.Val.{of_z}\n"
            else:
                uses_here = uses
            if "w64" in text and not re.search(r"\{[^}]*\bw64\b", uses_here):
                uses_here += "use mir.Syntax.{w64}\n"
            with open(f"{self.folder}/Invariants.antt", "w") as f:
                f.write(comment + uses_here + f"use {self.module}.Given as goal\n\n" + "\n".join(parts))
        rest = [p if p in answers else self.turned(p) for p in body if p not in shared]
        if any("goal." in p for p in rest) or left:
            extra = f"use {self.module}.Goals as goal\n"
            if self.widths and not re.search(r"\{[^}]*\bw64\b", uses):
                uses += "use mir.Syntax.{w64}\n"
            if self.used:
                extra += f"use {self.module}.Goals.{{{', '.join(sorted(self.used))}}}\n"
            if shared:
                extra += f"use {self.module}.Invariants.{{{', '.join(sorted(n for p in shared for n in self.declared(p)))}}}\n"
            with open(f"{self.folder}/Answers.antt", "w") as f:
                f.write(comment + uses + extra + "\n" + "\n".join(rest))
                for piece in left:
                    f.write("\n" + "".join("-- left: " + l for l in piece.splitlines(keepends=True)))
        os.remove(f"{self.folder}/Proof.antt")

    def declared(self, piece):
        out = []
        for line in piece.splitlines():
            m = re.match(rf"(?:(?:pub|abbrev|unfoldable|record|data) )*({WORD})(?: [({{].*)? :(?=\s|$)", line)
            if m and not line.startswith(("--", "module ", " ")):
                out.append(m[1])
        return out

    def shared(self, body, invariants):
        """The pieces that the invariants speak of, in order."""
        wanted = set()
        for *_, piece in invariants:
            wanted |= set(TOKEN.findall(piece))
        taken = []
        grew = True
        while grew:
            grew = False
            for p in body:
                if p not in taken and not re.match(r"pub \S+ : goal\.", p) and set(self.declared(p)) & wanted:
                    taken.append(p)
                    wanted |= set(TOKEN.findall(p))
                    grew = True
        return [p for p in body if p in taken]

    def public(self, piece):
        out = []
        record = False
        for line in piece.splitlines(keepends=True):
            m = re.match(r"(abbrev |unfoldable )?(record |data )?(\S+)( .*)? :(\s|$)", line)
            if m and not line.startswith((" ", "--", "pub ")):
                record = bool(m[2])
                line = (f"{m[1]}pub " + line[len(m[1]):]) if m[1] else "pub " + line
            elif record and re.match(rf"  {WORD} :", line):
                line = "  pub " + line[2:]
            out.append(line)
        return "".join(out)

    def unwrapped(self, text, place):
        opens, closes = text.startswith("("), text.endswith(")")
        return place if opens and closes else ("(" if opens else "") + place + (")" if closes else "")

    def invariant(self, name, kind, loop, piece):
        rest = piece[piece.index("\n", piece.index(" : tie.")) + 1:]
        clause = re.search(rf"(?m)^{re.escape(name)}((?: {WORD})*?) =", rest)
        found = [(k, l) for k, l in enumerate(self.entry["loops"]) if plain(l[0][0]) == plain(loop)]
        if not clause or not found:
            self.tell(f"{name} is not read")
            return "".join("-- left: " + l for l in piece.splitlines(keepends=True))
        k, ((old, new), variables) = found[0]
        changed = self.entry["changed"][k]
        renames = self.fields.get(plain(old), {})
        places = [(f"l.initial.{v}" if c else f"l.{v}") for v, c in zip(variables, changed)]
        places += [f"l.{renames.get(plain(v), v)}" for v, c in zip(variables, changed) if c]
        params = clause[1].split()
        if len(params) != len(places):
            self.tell(f"{name} has {len(params)} arguments for {len(places)} places")
        table = dict(zip(params, places))
        bits = {v for v in params if f"to_z w64 {v}" in rest} | {v for v, q in zip(params, places) if q.endswith("-bits")}
        body = rest[clause.end():]
        for v in bits:
            table[v] = table[v].removesuffix("-bits")
        read = "|".join(rf"\(?\bto_z w64 {re.escape(v)}(?![^\s(){{}}.;,«»])\)?" for v in sorted(bits)) or "(?!)"
        def turn(m):
            if m[1]:
                return self.unwrapped(m[1], table[re.search(rf"w64 ({WORD})", m[1])[1]])
            return (f"(of_z w64 {table[m[0]]})" if m[0] in bits else table[m[0]]) if m[0] in table else m[0]
        # a field's name in `record { f = .. }` stays
        body = re.sub(rf"({read})|(?<![^\s(){{}};,«»]){WORD}(?![^\s(){{}}.;,@\"«»⌜⌝])(?! = )", turn, body)
        return f"abbrev pub {kind}-{new} : goal.{kind}-{new}\n{rest[:clause.start()]}{kind}-{new} l ={body}"


def main():
    crate = sys.argv[1]
    old_root = sys.argv[2] if len(sys.argv) > 2 else "/work/old/landed"
    names = names_of(crate)
    said = []
    for folder, dirs, files in os.walk(f"crates/{crate}/proofs"):
        if "Proof.antt" in files:
            function = os.path.relpath(folder, f"crates/{crate}/proofs")
            key = f"Rattle-{crate}-proofs.{function.replace('/', '.')}.Lts"
            if key in names:
                Function(crate, function, names[key], old_root, said).convert()
            else:
                said.append(f"{function}: no names, by hand")
    print("\n".join(said))


if __name__ == "__main__":
    main()
