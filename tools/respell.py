#!/usr/bin/env python3
"""Brings the names of this repository's definitions and lemmas to snake case.

usage: python3 tools/respell.py [--dry]      at the top of the repository, once, after port.py

It goes by tokens. In every .antt file of specs/ and proofs/, in the ghost items and clauses of every .rt file, in the must-fail edits of those
files, and in back-ticked names of the documents, a name of this repository that has a capital inside or a dash is written in snake case:
`disksInRange` is `disks_in_range`, `sumBy-last` is `sum_by_last`. Types, modules and constructors that begin with a capital keep their spelling.
Names of a library, and names that the checker makes (the fields of a walk, what is declared at a type `tie.X` or `goal.X`), keep theirs too; the
proof of a function `f` is `f_spec`.

EXCEPTIONS has the names for which plain snake case would fall together with another name of the same file. Where two names of a file still fall
together, the script prints them, and without --dry it writes nothing. --list prints each old name with its new one.
"""

import os
import re
import sys

# Old name: new name. A pair (file, old name) is for that file alone, and stands before the plain name.
EXCEPTIONS = {
    # A lemma that would have the name of what it speaks of ends in _lem, as in the library.
    "by-film": "by_film_lem", "by-ratio": "by_ratio_lem", "caseA-text": "case_a_text_lem", "copies-accepted": "copies_accepted_lem",
    "copies-body": "copies_body_lem", "copies-from": "copies_from_lem", "copies-held": "copies_held_lem", "copy-entry": "copy_entry_lem",
    "count_at": "count_at_lem", "disk-accepted": "disk_accepted_lem", "disk-at": "disk_at_lem", "disk-head": "disk_head_lem",
    "disks-at": "disks_at_lem", "earliest-from": "earliest_from_lem", "equal-plan": "equal_plan_lem", "few-disks": "few_disks_lem",
    "first-line": "first_line_lem", "first-slots": "first_slots_lem", "first_load": "first_load_lem", "holding-rack": "holding_rack_lem",
    "in-range": "in_range_lem", "left-accepted": "left_accepted_lem", "left-films": "left_films_lem", "line-end": "line_end_lem",
    "marked-plan": "marked_plan_lem", "marked-text": "marked_text_lem", "mixed-line": "mixed_line_lem", "mixed-text": "mixed_text_lem",
    "numbers-byFilm": "numbers_by_film_lem", "other-film-A": "other_film_a_lem", "overloaded-A": "overloaded_a_lem",
    "overserved-A": "overserved_a_lem", "pairs-body": "pairs_body_lem", "plan-held": "plan_held_lem", "printed-equal": "printed_equal_lem",
    "rack-accepted": "rack_accepted_lem", "rack-body": "rack_body_lem", "rack-given": "rack_given_lem", "rack-read": "rack_read_lem",
    "refused-at": "refused_at_lem", "served-line": "served_line_lem", "sized-output": "sized_output_lem", "stored-behind": "stored_behind_lem",
    "stored-from": "stored_from_lem", "table-sum": "table_sum_lem", "texts-read": "texts_read_lem", "transfer-entry": "transfer_entry_lem",
    "unused-zero": "unused_zero_lem", "values-from": "values_from_lem", "without-marks": "without_marks_lem", "written_at": "written_at_lem",
    # The same laws as the documents spell them, which port.py leaves alone.
    "count-at": "count_at_lem", "first-load": "first_load_lem", "written-at": "written_at_lem",
    # Places of a walk, beside the definitions disks_of, plan_of, rack_judged and rack_of.
    "disks-of": "disks_there", "rack-judged": "at_rack_judged", "rack-of": "rack_there",
    ("crates/plan_after/proofs/plan_marked/Proof.antt", "plan-of"): "plan_there",
}

DOCUMENTS = ["README.md", "docs"]  # pages, and folders of pages

RESERVED = set(
    "data record deriving module where use mod pub package open as unfoldable abbrev axiom unfold unfolding ruleset mutual infix infixl infixr elim let in do "
    "Type coe fcoe tcoe hcom com rw simp search grw cc omega grind hlevel assumption ground first_of cap absurd refl subst sym ap result".split()
)

NAME = re.compile(r'[^\s(){}.;,@"«»]+')
OLD = re.compile(r"[a-z][a-z0-9_'₀-₉]*[A-Z]|[A-Za-z0-9'₀-₉_]-[A-Za-z0-9≤<≡+∷ℕ]|′")
MARKS = r"(?:(?:pattern|unfoldable|abbrev|pub|axiom)\s+)*"
SIGNATURE = re.compile(r"^(\s*)(" + MARKS + r')([^\s(){}.;,@"«»:=|]+)((?:\s+[({].*)?)\s+:(?:\s|$)')
HEAD = re.compile(r"^(\s*)(?:pub\s+)?(record|data)\s+([^\s(){}.;,@\"«»]+)")
SECTION = re.compile(r"^(\s*)module _")
GENERATED = re.compile(r"^\s*(?:\(t : ℕ\) → )?[\w-]+\.(?:Need|invariant|decreases|Goal|goal)-[^→]*$|^\s*(?:tie|goal)\.[^\s→]+\s*$")
USE = re.compile(r"^(?:ghost )?(?:unfoldable )?(?:pub )?use\s+([^\s{;]*?)\.?\{([^}]*)\}", re.M)
MODULE = re.compile(r"^(?:ghost )?(?:pub )?use\s+([^\s{;]+)\s+as\s+([^\s{;]+)", re.M)
PLACES = ("specs", "proofs")


def is_old(name):
    """Whether a name has the older spelling: a capital behind a small first letter, or a dash between letters, or the letter ′."""
    if not OLD.search(name):
        return False
    return not re.match(r"[A-Z][A-Za-z0-9'₀-₉]*$", name)


def snake(name):
    """The name in snake case; what stands before the first letter (as + or μ) is kept."""
    name = name.replace("′", "'")
    out = ""
    for i, c in enumerate(name):
        if c == "-" and 0 < i < len(name) - 1:
            out += "_"
        elif "A" <= c <= "Z":
            if out and (out[-1].isalnum() or out[-1] in "'") and not (i and "A" <= name[i - 1] <= "Z" and not name[i + 1 : i + 2].islower()):
                out += "_"
            out += c.lower()
        else:
            out += c
    return out


def walk(folder, end):
    for top, dirs, files in os.walk(folder):
        dirs[:] = sorted(d for d in dirs if d != "out")
        for f in sorted(files):
            if f.endswith(end):
                yield os.path.join(top, f)


def pieces(text, rust):
    """The text cut into (kind, part): 'code', 'comment', 'text' (a quoted text)."""
    comment = r"//[^\n]*|/\*.*?\*/" if rust else r"(?<![^\s(){}.;,@\"«»])--[^\n]*|\{-.*?-\}"
    quoted = r'b?r#".*?"#|b?"(?:\\.|[^"\\])*"' + (r"|b?'(?:\\.[^']*|[^'\\\s])'(?![\w'])" if rust else "")
    at = 0
    for m in re.finditer(f"({comment})|({quoted})", text, re.S):
        if at < m.start():
            yield "code", text[at : m.start()]
        yield ("comment" if m.group(1) is not None else "text"), m.group()
        at = m.end()
    if at < len(text):
        yield "code", text[at:]


def code_of(text, rust):
    """The text with comments and quoted texts blanked, lines kept."""
    return "".join(p if k == "code" else re.sub(r"[^\n]", " ", p) for k, p in pieces(text, rust))


class File:
    def __init__(self, path):
        self.path = path
        self.rust = path.endswith(".rt")
        with open(path, encoding="utf-8") as f:
            self.text = f.read()
        self.code = code_of(self.text, self.rust)
        self.generated = set()  # declared here at a type that the checker made
        self.own = {}  # declared here: name -> line
        self.fields = set()
        self.library = set()  # imported from elsewhere
        self.imports = {}  # local name -> (module, name)

    def read(self, modules):
        if not self.rust:
            self.declarations()
        self.modules = {m.group(2): m.group(1) for m in MODULE.finditer(self.code)}  # what the file calls a module
        for m in USE.finditer(self.code):
            base = m.group(1).strip().rstrip(".")
            for item in m.group(2).split(","):
                words = item.split()
                if not words:
                    continue
                path = (base + "." + words[0]).split(".")
                module, name = ".".join(path[:-1]), path[-1]
                local = words[2] if len(words) == 3 and words[1] == "as" else name
                if module in modules:
                    self.imports[local] = (module, name)
                else:
                    self.library.add(name)
                    if local == name:
                        self.imports[local] = (None, name)

    def declarations(self):
        lines = self.code.split("\n")
        block = None  # the indentation of a record's head, while its body is read
        for n, line in enumerate(lines, 1):
            if not line.strip():
                continue
            indent = len(line) - len(line.lstrip())
            if block is not None and indent <= block and not re.match(r"\s*(where|:)", line):
                block = None
            h = HEAD.match(line)
            if h:
                block = indent if h.group(2) == "record" else None
                continue
            if re.match(r"\s*(let|use|mod|ghost|where|in)\b", line):
                continue
            m = SIGNATURE.match(line)
            if not m:
                continue
            name = m.group(3)
            rest = line[m.end() :]
            if GENERATED.match(rest) and m.group(4).strip() == "":
                self.generated.add(name)
                continue
            if block is not None:
                self.fields.add(name)
            self.own.setdefault(name, n)


def modules_of(root):
    """Module path -> file, of every .antt file of the repository."""
    found = {}
    for crate in sorted(os.listdir(os.path.join(root, "crates"))):
        for place in PLACES:
            base = os.path.join(root, "crates", crate, place)
            for p in walk(base, ".antt"):
                parts = os.path.relpath(p, base)[: -len(".antt")].split(os.sep)
                if parts[-1] == "Lib":
                    parts.pop()
                found[".".join(["Rattle", crate, place, *parts])] = p
    return found


class Names:
    """All names of the repository, and what each becomes."""

    def __init__(self, root):
        self.root = root
        modules = modules_of(root)
        self.modules = modules
        self.files = {}
        for p in sorted(set(modules.values())) + [p for c in sorted(os.listdir(os.path.join(root, "crates"))) for p in walk(os.path.join(root, "crates", c, "src"), ".rt")]:
            f = File(p)
            f.read(modules)
            self.files[p] = f
        self.by_module = {m: self.files[p] for m, p in modules.items()}
        self.endings = {}  # the last words of a module's path -> files
        for m, f in self.by_module.items():
            words = m.split(".")
            for i in range(len(words)):
                self.endings.setdefault(".".join(words[i:]), []).append(f)
        self.fields = set().union(*(f.fields for f in self.files.values()))
        self.defined = set().union(*(set(f.own) for f in self.files.values()))
        self.seen = {}

    def new(self, path, name):
        short = os.path.relpath(path, self.root)
        for key in ((short, name), name):
            if key in EXCEPTIONS:
                return EXCEPTIONS[key]
        return snake(name)

    def turn_token(self, f, name, before, after):
        """The new spelling of a token, None where it is kept. before: the character in front of it; after: the text behind it."""
        if not is_old(name):
            if name not in EXCEPTIONS or EXCEPTIONS[name] in self.defined or before == "." or not (name in f.own or f.imports.get(name, (None, None))[0]):
                return None
        if re.match(r"[0-9]|[◌?]", name) or name[0].isupper():
            return None
        if before == ".":
            return self.new(f.path, name) if name in self.fields or self.of_path(f, after[0], name) else None
        if f.rust and name not in self.defined:
            return None if name not in f.imports else self.new(f.path, name)
        if name in f.generated or name in f.library:
            return None
        module, there = f.imports.get(name, (None, None))
        if module:
            g = self.by_module[module]
            if there in g.generated or (there not in g.own and there in g.library):
                return None
        return self.new(f.path, name)

    def of_path(self, f, path, name):
        """Whether the words in front of a dot name a module of the repository that declares the name."""
        head, dot, rest = path.rstrip(".").partition(".")
        path = f.modules.get(head, head) + dot + rest
        return any(name in g.own and name not in g.generated for g in self.endings.get(path, []))

    def turn_code(self, f, part, left=""):
        out, at = [], 0
        for m in NAME.finditer(part):
            before = part[m.start() - 1] if m.start() else left[-1:]
            path = re.search(r"[\w.]*\.$", part[: m.start()]) if before == "." else None
            new = self.turn_token(f, m.group(), before, (path.group() if path else "", part[m.end() :]))
            if new is not None and new != m.group():
                out.append(part[at : m.start()] + new)
                at = m.end()
                self.seen.setdefault(m.group(), {}).setdefault(new, set()).add(f.path)
        out.append(part[at:])
        return "".join(out)

    def turn_words(self, f, part, all_names):
        """Names in running text: back-ticked ones, and with all_names camel-case ones anywhere."""

        def one(m):
            w = m.group()
            if not is_old(w) or w[0].isupper():
                return w
            if w not in self.defined:  # a name that port.py turned stands in running text as it was
                return EXCEPTIONS.get(w, snake(w) if snake(w) in self.defined else w)
            if f is not None and (w in f.library or w in f.generated):
                return w
            return self.new(f.path if f else self.root, w)

        word = re.compile(r"[A-Za-z][\w'₀-₉]*(?:-[A-Za-z0-9][\w'₀-₉]*)*")
        part = re.sub(r"`[^`\n]*`", lambda m: word.sub(one, m.group()), part)
        if all_names:
            part = re.sub(r"\b[a-z][a-z0-9]*[A-Z]\w*(?:-[A-Za-z0-9]\w*)*", one, part)
        return part

    def turn(self, f):
        out, left = [], ""
        for kind, part in pieces(f.text, f.rust):
            if kind == "code":
                part = self.turn_code(f, part, left)
            elif kind == "comment":
                part = self.turn_words(f, part, True)
            out.append(part)
            left = part
        return "".join(out)

    def tokens(self, f):
        """The names of a file that stand on their own (no field behind a dot, no label `x =` in braces): old spelling -> new spelling."""
        found = {}
        for m in NAME.finditer(f.code):
            before = f.code[m.start() - 1] if m.start() else ""
            if before == "." or (re.match(r"\s*=\s", f.code[m.end() : m.end() + 9]) and re.search(r"[{;]\s*$", f.code[max(0, m.start() - 200) : m.start()])):
                continue  # a field, or a label
            name = m.group()
            new = self.turn_token(f, name, before, ("", ""))
            found[name] = new or name
        return found

    def collisions(self):
        lines = []
        for p, f in sorted(self.files.items()):
            short = os.path.relpath(p, self.root)
            back = {}
            for old, new in self.tokens(f).items():
                back.setdefault(new, set()).add(old)
            for new, olds in sorted(back.items()):
                if len(olds) > 1:
                    if f.rust and not self.same_clause(f, olds):
                        continue
                    lines.append(f"{short}: {', '.join(sorted(olds))} -> {new}")
                if new in RESERVED and any(o != new for o in olds):
                    lines.append(f"{short}: {', '.join(sorted(olds))} -> {new}, a word of the language")
        for p, f in sorted(self.files.items()):
            for local, (module, name) in sorted(f.imports.items()):
                g = self.by_module.get(module)
                if g and name in g.own | dict.fromkeys(g.generated):
                    here, there = (self.turn_token(x, name, "", ("", "")) or name for x in (f, g))
                    if here != there and local == name:
                        lines.append(f"{os.path.relpath(p, self.root)}: {name} is {here} here and {there} in {module}")
        for m, f in sorted(self.by_module.items()):
            back = {}
            for old in f.own:
                back.setdefault(self.turn_token(f, old, "", ("", "")) or old, set()).add(old)
            for new, olds in sorted(back.items()):
                if len(olds) > 1:
                    lines.append(f"{m}: {', '.join(sorted(olds))} are both declared, -> {new}")
        return sorted(set(lines))

    def same_clause(self, f, olds):
        """In a .rt file: whether the names stand together in the head of one function, as a clause's word and a parameter."""
        for head in re.findall(r"\bfn \w+.*?\n\{|\bfn \w+.*?;\n", f.code, re.S):
            clause = re.search(r"\b(requires|ensures|ghost|decreases)\b", head)
            if not clause:
                continue
            names = set(NAME.findall(head[: clause.start()].split("(", 1)[-1]))
            names = {n.rstrip(":") for n in names}
            words = set(NAME.findall(head[clause.start() :]))
            if len(olds & (names | words)) > 1:
                return True
        return False


def edits(names):
    """The must-fail edits: old: and new: lines, each in the spelling of the file that it is for."""
    for crate in sorted(os.listdir(os.path.join(names.root, "crates"))):
        base = os.path.join(names.root, "crates", crate)
        for p in walk(os.path.join(base, "must-fail"), ".edit"):
            with open(p, encoding="utf-8") as it:
                text = it.read()
            f, out = None, []
            for line in text.split("\n"):
                if line.startswith("file: "):
                    f = names.files.get(os.path.join(base, line[len("file: ") :].strip()))
                elif f and line.startswith(("old: ", "new: ")):
                    line = line[:5] + "".join(names.turn_code(f, part) if k == "code" else part for k, part in pieces(line[5:], f.rust))
                out.append(line)
            yield p, text, "\n".join(out)


def main(argv):
    dry = "--dry" in argv
    root = os.getcwd()
    if not os.path.isdir(os.path.join(root, "crates")):
        print("respell: run it at the top of the repository", file=sys.stderr)
        return 2
    names = Names(root)
    written = [(f.path, f.text, names.turn(f)) for f in names.files.values()]
    written += list(edits(names))
    for d in DOCUMENTS:
        d = os.path.join(root, d)
        for p in [d] if os.path.isfile(d) else walk(d, ".md"):
            with open(p, encoding="utf-8") as it:
                text = it.read()
            written.append((p, text, names.turn_words(None, text, False)))
    if "--list" in argv:
        for old, news in sorted(names.seen.items()):
            print(old, *sorted(news))
    bad = names.collisions()
    for line in bad:
        print("falls together: " + line)
    changed = [(p, new) for p, old, new in written if old != new]
    print(f"respell: {len(names.seen)} names in {len(changed)} files; {len(bad)} fall together")
    if dry or bad:
        return 1 if bad else 0
    for p, new in changed:
        with open(p, "w", encoding="utf-8") as f:
            f.write(new)
    return 0


if __name__ == "__main__":
    raise SystemExit(main(sys.argv[1:]))
