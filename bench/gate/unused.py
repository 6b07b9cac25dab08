#!/usr/bin/env python3
"""Lists the lemmas of crates/*/proofs that nothing names, and how many lines they are.

    python3 bench/gate/unused.py

A lemma is named where its file names it outside of itself, or where another file imports it and names it. What only unused lemmas
name is unused too. Answers, invariants and examples are named by the checker.
"""
import collections
import os
import re

TOP = os.path.join(os.path.dirname(os.path.dirname(os.path.dirname(os.path.abspath(__file__)))), "crates")
WORD = re.compile(r"[^\s(){}\[\],;.:⟨⟩λ=]+")
DECLARED = re.compile(r"^( {0,2})(?:pub |abbrev |unfoldable )*([^\s(){}\[\],;.:]+) : ")
IMPORT = re.compile(r"^ *(?:pub )?(?:ghost )?use Rattle\.([\w.]+?)(?:\.\{([^}]*)\}| as (\S+?))?;?$")
CITED = re.compile(r"(?:crate|(\w+))::proofs::([\w:]+)::([\w\-']+)")
BY_CHECKER = ("Answers.antt", "Invariants.antt")


def sources():
    for at, folders, names in os.walk(TOP):
        folders[:] = [it for it in folders if it != "out"]
        for name in names:
            if name.endswith((".antt", ".rt")):
                with open(os.path.join(at, name), encoding="utf-8") as file:
                    yield os.path.relpath(os.path.join(at, name), TOP), file.read().split("\n")


def words_of(path, lines):
    """The words of each line, none where it is a comment or an import."""
    for line in lines:
        is_comment = path.endswith(".antt") and line.lstrip().startswith("--")
        yield [] if is_comment or IMPORT.match(line) else WORD.findall(line)


def end_of(lines, start, indent, name):
    """Where the lemma that is declared in a line ends, or None where nothing defines it."""
    is_defined, at = False, start + 1
    while at < len(lines):
        line = lines[at]
        if line.strip():
            depth = len(line) - len(line.lstrip())
            is_clause = depth == indent and re.match(re.escape(name) + r"(\s|$)", line.lstrip())
            goes_on = line.lstrip()[0] in "→})" or (line.lstrip().startswith("unfolding") and not is_defined)
            if depth <= indent and not is_clause and not goes_on:
                break
            is_defined = is_defined or bool(is_clause)
        at += 1
    return at if is_defined else None


def lemmas_in(path, lines):
    if "/proofs/" not in path or not path.endswith(".antt") or path.endswith(BY_CHECKER) or "Examples" in path:
        return
    for at, line in enumerate(lines):
        declared = DECLARED.match(line)
        if declared:
            indent, name = len(declared.group(1)), declared.group(2)
            end = end_of(lines, at, indent, name)
            if end is not None:
                yield path, name, at, end


def imported(texts):
    """By module and name: the files that import it, each with the name that it has there, None where all of the module is."""
    users = collections.defaultdict(list)
    for path, lines in texts.items():
        for line in lines:
            found = IMPORT.match(line)
            if found:
                module, names, alias = found.groups()
                if names is None:
                    users[module, None].append(path)
                    users[module.rpartition(".")[0], module.rpartition(".")[2]].append((path, alias or module.rpartition(".")[2]))
                for name in names.split(",") if names else ():
                    name, _, other = name.strip().partition(" as ")
                    users[module, name].append((path, other or name))
            for crate, module, name in CITED.findall(line):
                crate = crate if crate and crate != "crate" else path.split("/")[0]
                users[f"{crate}.proofs.{module.replace('::', '.')}", name].append((path, None))
    return users


def main():
    texts = dict(sources())
    words = {path: list(words_of(path, lines)) for path, lines in texts.items()}
    counts = {path: collections.Counter(word for line in lines for word in line) for path, lines in words.items()}
    users, unused, more = imported(texts), [], True
    lemmas = [it for path, lines in texts.items() for it in lemmas_in(path, lines)]
    while more:
        more = []
        for path, name, start, end in lemmas:
            own = sum(line.count(name) for line in words[path][start:end])
            module = path.removesuffix(".antt").replace("/", ".")
            elsewhere = any(used is None or counts[file][used] for file, used in users[module, name])
            elsewhere = elsewhere or any(counts[file][name] for file in users[module, None])
            if counts[path][name] <= own and not elsewhere:
                more.append((path, name, start, end))
        for it in more:
            lemmas.remove(it)
            path, _, start, end = it
            for at in range(start, end):
                counts[path].subtract(words[path][at])
                words[path][at] = []
        unused += more
    for path, name, start, end in sorted(unused):
        print(f"{path}:{start + 1} {name} {end - start}")
    print(f"{len(unused)} lemmas, {sum(end - start for _, _, start, end in unused)} lines")


if __name__ == "__main__":
    main()
