#!/usr/bin/env python3
"""Brings the repository's own definitions and lemmas to snake case: 'firstFailed' to 'first_failed', 'lowest-is-least' to
'lowest_is_least'. Run once, at the top, after the toolchain's port.py; it rewrites crates/ in place and prints what it left.

Types, modules and constructors stay in camel case. Names of the toolchain's libraries and names that the check makes stay as they
are: what a file imports from elsewhere, what follows a dot and is no field of ours, and the goals of a function's proof file.
Where a lemma's name would fall together with a definition's, the lemma gets '_law' behind it.
"""

import collections
import glob
import os
import re
import sys

TOKEN = re.compile(r"[^\s(){}\[\];,.:«»\"`λ]+(?<![:])")
DEFINED = re.compile(r"^(\s*)((?:pub |abbrev |unfoldable |record |data )*)([^\s(){}\[\];,.:\"]+) (?:[({].*[)}] )?:( |$)")
# A field of the same record has the name that this definition would get.
CHOSEN = {"idleTo": "idle_up_to"}
WORDS = {"use", "let", "in", "elim", "module", "pub", "where"}


def snake(name):
    name = name.replace("-", "_")
    if name[0].isupper():
        return name
    name = re.sub(r"([a-z0-9])([A-Z]+)(?=$|[^A-Za-z])", lambda m: m[1] + "_" + m[2].lower(), name)
    while re.search(r"[a-z0-9][A-Z]", name):
        name = re.sub(r"([a-z0-9])([A-Z])", lambda m: m[1] + "_" + m[2].lower(), name)
    return re.sub(r"([a-z])(\d{2,})", r"\1_\2", name) if re.search(r"[a-z]\d{2,}$", name) else name


def is_odd(name):
    return "-" in name.strip("-") and re.match(r"[A-Za-z]", name) is not None or re.match(r"[a-z][\w]*[a-z0-9][A-Z]", name) is not None


def antt_files():
    return sorted(f for f in glob.glob("crates/*/specs/**/*.antt", recursive=True) + glob.glob("crates/*/proofs/**/*.antt", recursive=True))


def own_names(texts, crates):
    """Each name that the repository defines, with the files that do; a proof file's goals are not among them."""
    where = collections.defaultdict(set)
    for f, text in texts.items():
        for line in text.split("\n"):
            m = DEFINED.match(line)
            if not m or m[3] in WORDS:
                continue
            if f.endswith("/Proof.antt") and (re.search(r": tie\.Need-", line) or re.search(r": \{M : Type 1\} → statement", line)):
                continue
            where[m[3]].add(f)
    return where


def foreign_names(text, crates):
    """What a file imports from elsewhere, and the paths of its imports."""
    names = set()
    for m in re.finditer(r"use ([\w.+'-]+)\.\{([^}]*)\}", text):
        path = m[1]
        own = path.startswith("Rattle.") and path.split(".")[1] in crates and ".declared" not in path
        if own:
            continue
        for part in m[2].split(","):
            for word in part.split(" as "):
                names.add(word.strip())
    return names


def main():
    with open("crates.txt") as f:
        crates = {line.split(":")[0].split()[0] for line in f if ":" in line and not line.startswith("#")}
    texts = {f: open(f, encoding="utf-8").read() for f in antt_files()}
    where = own_names(texts, crates)
    spelled = {}
    together = collections.defaultdict(set)
    for name in where:
        together[snake(name)].add(name)
    for new, olds in together.items():
        if len(olds) == 1 and next(iter(olds)) in CHOSEN:
            spelled[next(iter(olds))] = CHOSEN[next(iter(olds))]
            continue
        if len(olds) == 1:
            spelled[next(iter(olds))] = new
            continue
        definitions = [n for n in olds if "-" not in n and re.search(r"[a-z0-9][A-Z]", n)]
        if not definitions:
            definitions = [n for n in olds if any("/specs/" in f for f in where[n])]
        for n in olds:
            spelled[n] = new if n in definitions else new + "_law"
        print(f"together: {new}: {', '.join(f'{n} is {spelled[n]}' for n in sorted(olds))}")
    fields = set()
    for f, text in texts.items():
        for m in re.finditer(r"^  (?:pub )?([^\s(){}\[\];,.:\"]+) :", text, re.M):
            fields.add(m[1])

    def turn(text, foreign, proof, comment_only=False):
        out = []
        for line in text.split("\n"):
            code, mark, comment = line.partition("--") if not line.lstrip().startswith("--") else ("", "--", line.lstrip()[2:])
            lead = line[: len(line) - len(line.lstrip())] if not code and mark else ""

            def one(m):
                name = m[0]
                before = code[: m.start()]
                if name in foreign:
                    return name
                if before.endswith("."):
                    path = re.search(r"[\w.+'-]*$", before)[0]
                    if path.startswith("Rattle."):
                        return name
                    return spelled.get(name, name) if name in fields and name in spelled else name
                if name in spelled:
                    return spelled[name]
                if not proof and is_odd(name):
                    return snake(name)
                return name

            def quoted(m):
                inner = m[1]
                return "`" + spelled.get(inner, inner) + "`"

            is_path = re.match(r"\s*(pub )?(use|mod) ", code)
            if is_path:
                head, brace, names = code.partition("{")
                names = TOKEN.sub(lambda m: m[0] if m[0] in foreign else spelled.get(m[0], m[0]), names)
                code2 = head + brace + names
            else:
                code2 = TOKEN.sub(one, code)
            out.append((lead if not code and mark else "") + code2 + mark + re.sub(r"`([^`\s]+)`", quoted, comment))
        return "\n".join(out)

    for f, text in texts.items():
        foreign = foreign_names(text, crates)
        proof = f.endswith("/Proof.antt")
        for name in sorted(foreign):
            ours = {o for o in set(TOKEN.findall(text)) & spelled.keys() if o != name and spelled[o] == name}
            if ours:
                print(f"look: {f}: the library's {name} is {name}_std there, as {', '.join(ours)} is {name} now")
                text = TOKEN.sub(lambda m: name + "_std" if m[0] == name else m[0], text)
                text = re.sub(r"^(use [\w.+'-]+\.\{[^}]*)(?<![\w'-])" + re.escape(name) + r"_std(?![\w'-])", lambda m: m[1] + name + " as " + name + "_std", text, flags=re.M)
                foreign |= {name + "_std"}
        new = turn(text, foreign, proof)
        old_tokens, new_tokens = set(TOKEN.findall(text)), set(TOKEN.findall(new))
        for n in old_tokens:
            if n not in new_tokens and is_odd(n):
                target = spelled.get(n, snake(n))
                if target in old_tokens:
                    print(f"look: {f}: {n} is now {target}, which stood there before")
        if new != text:
            open(f, "w", encoding="utf-8").write(new)
    for f in sorted(glob.glob("crates/*/src/**/*.rt", recursive=True)):
        text = open(f, encoding="utf-8").read()
        params = set(re.findall(r"[(,]\s*(?:mut )?([a-z_]\w*):", text)) | set(re.findall(r"^\s+(?:pub )?([a-z_]\w*): ", text, re.M))
        camel = {n: s for n, s in spelled.items() if n != s}

        def word(m):
            name = m[0]
            if name in camel:
                if camel[name] in params:
                    print(f"look: {f}: {name} is now {camel[name]}, a parameter or field there")
                return camel[name]
            return name

        lines = []
        for line in text.split("\n"):
            if re.match(r"\s*(ghost use|requires|ensures|ghost )", line) or re.match(r"\s*//", line) or "⌜" in line or "ghost" in line:
                code, slash, comment = line.partition("//")
                code = re.sub(r"[A-Za-z][\w'-]*", lambda m: word(m), code)
                comment = re.sub(r"`([^`\s]+)`", lambda m: "`" + camel.get(m[1], m[1]) + "`", comment)
                line = code + slash + comment
            else:
                line = re.sub(r"(?<![\w\"'])[a-z]+[A-Z]\w*", lambda m: word(m), line) if re.search(r"[a-z][A-Z]", line) else line
            lines.append(line)
        new = "\n".join(lines)
        if new != text:
            open(f, "w", encoding="utf-8").write(new)
    for f in sorted(glob.glob("*.md") + glob.glob("docs/**/*.md", recursive=True)):
        text = open(f, encoding="utf-8").read()

        def named(m):
            name = m[0]
            if name in spelled:
                return spelled[name]
            if is_odd(name) and (snake(name) in spelled or snake(name) in where):
                return spelled.get(snake(name), snake(name))
            return name

        def span(m):
            return "`" + re.sub(r"(?<![\w./'-])[A-Za-z][\w'-]*(?![\w/'-])", named, m[1]) + "`"

        new = re.sub(r"`([^`\n]+)`", span, text)
        if new != text:
            open(f, "w", encoding="utf-8").write(new)


if __name__ == "__main__":
    os.chdir(sys.argv[1] if len(sys.argv) > 1 else ".")
    main()
