#!/usr/bin/env python3
"""Turns the proofs of a crate's functions from the older form (Proof.antt, which cites the generated module Tie) to Invariants.antt and
Answers.antt.

usage: tools/answers.py CRATE [FUNCTION..]     at the top of the repository; the crate's sources must be accepted, those below it proved

The names come from `rt check --generated DIR --old-names`. Answers that say only `search rules` are left out: the check finds them.
What it cannot read it names, and leaves.
"""
import json
import os
import re
import subprocess
import sys
import tempfile

PATH = re.compile(r"(?<![\w'.-])([a-z]\w*)((?:\.[A-Za-z0-9_'₀-₉-]+)+)")
TOKEN = re.compile(r"[^\s(){}\[\];,:λ]+")


def blocks(text):
    """Top-level declarations: lists of lines, with the comment lines above each."""
    out, cur = [], []
    for line in text.split("\n"):
        if not line.strip():
            if cur:
                out.append(cur)
            cur = []
            continue
        cur.append(line)
    if cur:
        out.append(cur)
    joined = []
    for block in out:
        if joined and block[0].startswith(" "):
            joined[-1] += [""] + block
        else:
            joined.append(block)
    return joined


def head_of(block):
    k = 0
    while k < len(block) and block[k].startswith("--"):
        k += 1
    return block[:k], block[k:]


def args_of(text):
    """The arguments of an application: parenthesised terms and words."""
    out, i = [], 0
    while i < len(text):
        if text[i].isspace():
            i += 1
        elif text[i] == "(":
            depth, j = 0, i
            while True:
                depth += {"(": 1, ")": -1}.get(text[j], 0)
                j += 1
                if depth == 0:
                    break
            out.append(text[i:j])
            i = j
        elif text[i] == ")":
            break
        else:
            j = i
            while j < len(text) and not text[j].isspace() and text[j] not in "()":
                j += 1
            out.append(text[i:j])
            i = j
    return out


class Function:
    def __init__(self, crate, path, names):
        self.crate, self.path, self.names = crate, path, names
        self.steps, callee = {}, {}
        for place in names["places"]:
            if place[3] in names["params"]:
                callee[place[2][0]] = names["params"][place[3]]
        self.callee = callee
        for place in names["places"]:
            old, new = place[2]
            self.steps.setdefault(old, new)
        self.arms = {}
        for arm in names["arms"]:
            if arm:
                for field, step, rest in arm[2]:
                    self.arms[(step,) + tuple(rest)] = (arm[0], field)
        self.needs = dict((o, n) for o, n in names["needs"])
        self.loops = {l[0][0]: (l[0][1], l[1], c) for l, c in zip(names["loops"], names["changed"])}
        self.odd = []
        self.imports = set()

    def path_of(self, m):
        var, rest = m.group(1), m.group(2)[1:].split(".")
        if var not in self.vars:
            return m.group(0)
        parts = [p for p in rest if p != "before"]
        if not parts:
            return var
        for n in range(len(parts), 1, -1):
            key = tuple(parts[:n])
            if key in self.arms:
                arm, field = self.arms[key]
                return ".".join([var, arm, field] + parts[n:])
        step = parts[0]
        if len(parts) > 2 and parts[1] == "auto" and parts[2].isdigit():
            params = self.callee.get(step) or self.callee.get(step.replace("-", "_"))
            if params and int(parts[2]) < len(params):
                parts[2] = params[int(parts[2])]
                if len(parts) == 4 and parts[3] == "0":
                    del parts[3]
        if step in self.steps:
            parts[0] = self.steps[step]
        elif step.replace("-", "_") in self.steps:
            parts[0] = self.steps[step.replace("-", "_")]
        return re.sub(r"(\.in[-_][\w-]+)\.given\.1\b", r"\1.is", ".".join([var] + parts))

    def turned(self, text):
        self.vars = {"c"}
        while True:
            more = set(v for v, w in re.findall(r"let (\w+) = (\w+)(?:\.before)* in", text) if w in self.vars) - self.vars
            if not more:
                break
            self.vars |= more
        text = PATH.sub(self.path_of, text)
        return re.sub(r"⊎_elim \(λ (\w+)\. ((?:[^()]|\([^()]*\))*)\) \(λ (\w+)\. ((?:[^()]|\([^()]*\))*)\) (\w+)\.if-([\w'-]+)\.branch", self.cases, text)

    def cases(self, m):
        v, a, w, b, c, name = m.groups()
        self.imports |= {"then-" + name, "else-" + name}
        a = re.sub(r"\b%s\.0\.(taken|true)\b" % v, "%s.if-%s.true" % (v, name), a)
        b = re.sub(r"\b%s\.0\.(left|false)\b" % w, "%s.if-%s.false" % (w, name), b)
        return "elim %s.if-%s.branch [ then-%s %s ↦ %s | else-%s %s ↦ %s ]" % (c, name, name, v, a, name, w, b)

    def invariant(self, kind, loop, lines):
        new, params, changed = self.loops[loop]
        text = "\n".join(lines)
        m = re.match(r"(\S+)((?:\s+(?!=)\S+)*)\s+=(\s)", text)
        given = args_of(m.group(2))
        paths = ["l.initial." + p if c else "l." + p for p, c in zip(params, changed)]
        paths += ["l." + p for p, c in zip(params, changed) if c]
        if len(given) != len(paths):
            self.odd.append("%s-%s: %d arguments for %d" % (kind, loop, len(given), len(paths)))
            paths += ["?"] * len(given)
        table = {g: p for g, p in zip(given, paths) if g != "_"}
        body = text[m.end() - 1:]

        def word(t):
            w = t.group(0)
            first, dot, rest = w.partition(".")
            if first in table:
                return table[first] + dot + rest
            return w

        body = TOKEN.sub(word, body)
        body = re.sub(r"((?:record \{|;)\s*)l\.(?:initial\.)?(\w+) =", r"\1\2 =", body)
        name = "%s-%s" % (kind, new)
        return ["abbrev pub %s : goal.%s" % (name, name), "%s l =%s" % (name, body)]

    def find_need(self, old):
        plain = {k.replace("-", "_"): v for k, v in self.needs.items()}
        cut = re.sub(r"^(overflow|nonzero)-", "", old)
        for name in (old, cut):
            if name in self.needs:
                return self.needs[name]
            if name.replace("-", "_") in plain:
                return plain[name.replace("-", "_")]
        return None

    def convert(self):
        with open(self.path, encoding="utf-8") as f:
            text = f.read()
        uses, invs, answers, helpers, comments = [], [], [], [], []
        said = {}
        order = [o for o, _ in self.names["needs"]]
        self.by_place = {}
        m = re.search(r"tie\.spec\b(.*)", " ".join(l.strip() for l in text.split("\n")))
        if m:
            args = [a for a in args_of(m.group(1)) if not re.match(r"(invariant|decreases)", a)]
            if len(args) == len(order):
                self.by_place = dict(zip(args, (n for _, n in self.names["needs"])))
        module = None
        first = True
        for block in blocks(text):
            if any("tie.close" in l for l in block) or any(re.search(r": .*\bstatement M", l) for l in block):
                joined = " ".join(l.strip() for l in block)
                m = re.search(r"tie\.spec\b(.*)", joined)
                if not m:
                    self.odd.append("no tie.spec")
                    continue
                args = args_of(m.group(1))
                extra = sum(1 for a in args if re.match(r"(invariant|decreases)", a))
                args = args[extra:]
                if len(args) != len(order):
                    self.odd.append("spec has %d answers for %d goals" % (len(args), len(order)))
                for need, arg in zip(order, args):
                    m = re.match(r"\(λ (\S+)\. (.*)\)$", arg)
                    if m and m.group(2) != "search rules":
                        said[self.needs[need]] = [m.group(1), self.turned(m.group(2))]
                continue
            comment, rest = head_of(block)
            if not rest:
                comments += comment
                continue
            if rest[0].startswith("use "):
                if first:
                    comments += comment
                for l in rest:
                    if l.startswith("use "):
                        m = re.match(r"use (\S+)\.Tie as tie", l)
                        if m:
                            module = m.group(1)
                        elif not re.search(r"\.Statement\.\{statement\}", l):
                            uses.append(l)
                first = False
                continue
            first = False
            sig = rest[0]
            m = re.match(r"(?:abbrev )?(?:pub )?(\S+) : tie\.(invariant|decreases)-(\S+)$", sig)
            if m and m.group(3) in self.loops:
                invs.append(comment + self.invariant(m.group(2), m.group(3), rest[1:]))
                continue
            m = re.match(r"(?:abbrev )?(?:pub )?(\S+) : tie\.Need-(\S+)", sig)
            if m:
                need = self.by_place.get(m.group(1)) or self.find_need(m.group(2))
                if need is None:
                    self.odd.append("no goal for " + m.group(2))
                    need = m.group(2)
                body = "\n".join(rest[1:])
                k = body.find("\n" + m.group(1) + " ")
                lead, defn = ("", body) if k < 0 else (body[:k + 1], body[k + 1:])
                d = re.match(re.escape(m.group(1)) + r"((?:\s+(?!=)\S+)*)\s+=(\s)", defn)
                if not d:
                    self.odd.append("definition of " + m.group(1))
                    answers.append(comment + rest)
                    continue
                if defn[d.end():].strip() == "search rules" and not lead:
                    continue
                answers.append(comment + ["pub %s : goal.%s" % (need, need)] + (lead.rstrip("\n").split("\n") if lead else [])
                               + [need + re.sub(r" κ\S*", "", d.group(1)) + " =" + self.turned(defn[d.end() - 1:])])
                continue
            if any("tie." in l for l in rest):
                self.odd.append("block " + sig)
            helpers.append(comment + rest)
        for need, (var, term) in said.items():
            answers.append(["pub %s : goal.%s" % (need, need), "%s %s = %s" % (need, var, term)])
        folder = os.path.dirname(self.path)
        module = module or "Rattle.%s.proofs.%s" % (self.crate, os.path.relpath(folder, "crates/%s/proofs" % self.crate).replace("/", "."))
        helped = [h for h in helpers if any(re.search(r"(?<![\w'-])%s(?![\w'-])" % re.escape(name_of(h)), "\n".join(i)) for i in invs)] if invs else []
        if invs:
            write(os.path.join(folder, "Invariants.antt"), comments, uses + ["use %s.Given as goal" % module], helped + invs)
        rest = [h for h in helpers if h not in helped]
        if helped:
            uses = uses + ["use %s.Invariants.{%s}" % (module, ", ".join(name_of(h) for h in helped))]
        if answers:
            more = ["use %s.Goals.{%s}" % (module, ", ".join(sorted(self.imports)))] if self.imports else []
            write(os.path.join(folder, "Answers.antt"), comments, uses + ["use %s.Goals as goal" % module] + more, rest + answers)
        elif rest:
            self.odd.append("helpers without answers: " + ", ".join(name_of(h) for h in rest))
        os.remove(self.path)
        return len(invs), len(answers)


def name_of(block):
    rest = head_of(block)[1]
    m = re.match(r"(?:abbrev |unfoldable |record |data )*(?:pub )?(?:abbrev |unfoldable |record |data )*(\S+)", rest[0])
    return m.group(1)


def write(path, comments, uses, parts):
    text = "\n".join(comments + uses) + "\n\n" + "\n\n".join("\n".join(p) for p in parts) + "\n"
    with open(path, "w", encoding="utf-8") as f:
        f.write(text)


def main():
    crate, only = sys.argv[1], sys.argv[2:]
    out = tempfile.mkdtemp()
    r = subprocess.run(["rt", "check", "--generated", out, "--old-names"], cwd="crates/" + crate, capture_output=True, text=True)
    path = os.path.join(out, "names.json")
    if not os.path.exists(path):
        sys.exit("no names: " + (r.stdout + r.stderr)[-3000:])
    with open(path) as f:
        names = json.load(f)
    prefix = "Rattle-%s-proofs." % crate
    for key in sorted(names):
        if not key.startswith(prefix) or not key.endswith(".Lts"):
            continue
        function = key[len(prefix):-len(".Lts")]
        if only and function not in only:
            continue
        proof = "crates/%s/proofs/%s/Proof.antt" % (crate, function.replace(".", "/"))
        if not os.path.exists(proof):
            continue
        f = Function(crate, proof, names[key])
        try:
            i, a = f.convert()
        except Exception as e:
            print("%s: NOT TURNED: %r" % (function, e))
            continue
        print("%s: %d invariants, %d answers%s" % (function, i, a, "".join("\n    odd: " + o for o in f.odd)))


if __name__ == "__main__":
    main()
