"""Which functions of the program's crates a call from `main` can reach, read from their sources.

Names are resolved as far as a reader without a compiler can: `module::name` and `Type::name` by the item they name, a bare name in its own
file or by a `use` of it, and a method call by its name alone. So what is called reachable may not be; what is called unreached is named
nowhere that `main` leads to.
"""
from __future__ import annotations

import collections
import os
import re

from built import ROOT
from collections.abc import Iterable, Iterator
from typing import NamedTuple, Optional


Mark = tuple[str, str, Optional[str], str, Optional[str]]  # crate, module, owner, name and trait of a function


class Function(NamedTuple):
    """A function, by the type that it is of, with the words of its body, and the trait that it meets."""

    crate: str
    module: str
    owner: Optional[str]
    name: str
    words: list[str]
    foreign: Optional[str]

    @property
    def mark(self) -> Mark:
        return self.crate, self.module, self.owner, self.name, self.foreign


LINE = re.compile(r"^(\w+)((?: \w+=\S+)*) *:(.*)$")
WORD = re.compile(r"\.\.|\.(?=[A-Za-z_])|::|[A-Za-z_]\w*|\S")
NO_WORDS = re.compile(r"""//[^\n]*|b?"(?:\\.|[^"\\])*"|b?'(?:\\.[^']*|[^'\\])'""", flags=re.S)
CLAUSES = {"requires", "ensures", "ghost", "measure", "decreases", "invariant"}


def groups() -> dict[str, dict[str, list[str]]]:
    """The crates of crates.txt by group, in the order of the file: group to (crate to the crates it stands on)."""
    found: dict[str, dict[str, list[str]]] = {}
    group: dict[str, list[str]] = {}
    with open(f"{ROOT}/crates.txt", encoding="utf-8") as lines:
        for line in lines:
            line = line.rstrip("\n")
            head = re.match(r"^# (\w+)$", line)
            if head:
                group = found.setdefault(head.group(1), {})
            named = LINE.match(line)
            if named:
                group[named.group(1)] = named.group(3).split()
    return found


def below(crate: str, stands_on: dict[str, list[str]]) -> set[str]:
    """The crate and all that it stands on, directly or not."""
    seen: set[str] = set()
    todo = [crate]
    while todo:
        name = todo.pop()
        if name in stands_on and name not in seen:
            seen.add(name)
            todo += stands_on[name]
    return seen


def words_of(text: str) -> list[str]:
    """The words of a source: no comments, texts or characters."""
    return WORD.findall(NO_WORDS.sub(" ", text))


def closing(words: list[str], at: int) -> int:
    """Where the bracket that opens at `at` closes."""
    depth = 0
    for end in range(at, len(words)):
        depth += (words[end] in "([{") - (words[end] in ")]}")
        if depth == 0:
            return end
    raise ValueError("a bracket isn't closed")


def clause_end(words: list[str], at: int) -> int:
    """Where the clause that begins at `at` ends: behind its braces, or behind its semicolon."""
    while words[at] not in ("{", ";"):
        at += 1
    return (closing(words, at) if words[at] == "{" else at) + 1


def body_of(words: list[str], at: int) -> tuple[list[str], int]:
    """The words of the body of the function whose name stands at `at`, and where it ends. No body: none."""
    while words[at] != "(":
        at += 1
    at = closing(words, at) + 1
    while words[at] not in ("{", ";"):
        at = clause_end(words, at) if words[at] in CLAUSES else at + 1
    if words[at] == ";":
        return [], at + 1
    end = closing(words, at)
    return words[at + 1 : end], end + 1


def without_clauses(words: list[str]) -> list[str]:
    """The words of a body without what only the prover reads."""
    kept: list[str] = []
    at = 0
    while at < len(words):
        if words[at] in CLAUSES and words[at - 1 : at] not in (["."], ["::"]) and words[at + 1 : at + 2] != ["="]:
            at = clause_end(words, at)
        else:
            kept.append(words[at])
            at += 1
    return kept


class Source:
    """One file: its functions, what it brings in by `use`, and the words that stand outside of functions."""

    def __init__(self, crate: str, module: str, text: str) -> None:
        self.crate, self.module = crate, module
        self.functions: list[Function] = []
        self.uses: dict[str, tuple[str, ...]] = {}
        self.tests: set[str] = set()
        self.outside: list[str] = []
        self.read(words_of(text), None, None)

    def read(self, words: list[str], owner: Optional[str], foreign: Optional[str]) -> None:
        at, test = 0, False
        while at < len(words):
            word = words[at]
            if word == "#" and words[at + 1 : at + 2] in (["["], ["!"]):
                start = at + 1 + (words[at + 1] == "!")
                end = closing(words, start)
                test = test or "test" in words[start:end]
                at = end + 1
                continue
            if word == "ghost":
                at = clause_end(words, at)
            elif word == "use":
                end = words.index(";", at)
                self.bring(words[at + 1 : end], [])
                at = end + 1
            elif word == "mod" and test and words[at + 2] == ";":
                self.tests.add(words[at + 1])
                at += 3
            elif word == "mod" and words[at + 2] == "{":
                end = closing(words, at + 2)
                if not test:
                    self.read(words[at + 3 : end], owner, foreign)
                at = end + 1
            elif word in ("impl", "trait"):
                brace = at
                while words[brace] != "{":
                    brace = clause_end(words, brace) if words[brace] in CLAUSES else brace + 1
                end = closing(words, brace)
                self.read(words[brace + 1 : end], *self.owner_of(words[at:brace]))
                at = end + 1
            elif word == "fn":
                body, end = body_of(words, at + 1)
                if not test:
                    name = words[at + 1]
                    self.functions.append(
                        Function(self.crate, self.module, owner, name, without_clauses(body), foreign)
                    )
                at = end
            else:
                self.outside.append(word)
                at += 1
                if word in ("pub", "const", "unsafe"):
                    continue
            test = False

    @staticmethod
    def owner_of(head: list[str]) -> tuple[str, Optional[str]]:
        """Of an `impl` or a `trait`: the type or trait that it speaks of, and the trait that is met, if any."""
        plain: list[str] = []
        depth = 0
        for at, word in enumerate(head[1:], 1):
            if word == ">" and head[at - 1] != "-":
                depth -= 1
            elif word == "<":
                depth += 1
            elif depth == 0:
                plain.append(word)
        if "where" in plain:
            plain = plain[: plain.index("where")]
        if head[0] == "trait":
            return plain[0], None
        if "for" in plain:
            cut = plain.index("for")
            names = [it for it in plain[cut + 1 :] if re.match(r"[A-Za-z_]", it) and it != "mut"]
            met = [it for it in plain[:cut] if re.match(r"[A-Za-z_]", it)]
            return (names or ["?"])[-1], met[-1]
        names = [it for it in plain if re.match(r"[A-Za-z_]", it)]
        return names[-1], None

    def bring(self, words: list[str], front: Iterable[str]) -> None:
        path, at = list(front), 0
        while at < len(words):
            word = words[at]
            if word == "{":
                end = closing(words, at)
                part: list[str] = []
                depth = 0
                for inner in words[at + 1 : end] + [","]:
                    depth += (inner == "{") - (inner == "}")
                    if inner == "," and depth == 0:
                        if part:
                            self.bring(part, path)
                        part = []
                    else:
                        part.append(inner)
                return
            if word == "as":
                self.uses[words[at + 1]] = tuple(path)
                return
            if word not in ("::", "pub"):
                path.append(word)
            at += 1
        if path and path[-1] == "self":
            path.pop()
        if path:
            self.uses[path[-1]] = tuple(path)


def sources(crate: str) -> list[Source]:
    folder = f"{ROOT}/crates/{crate}/src"
    found = []
    for name in sorted(os.listdir(folder)):
        if name.endswith(".rt"):
            with open(f"{folder}/{name}", encoding="utf-8") as file:
                found.append(Source(crate, name[:-3], file.read()))
    tests = {module for source in found for module in source.tests}
    return [source for source in found if source.module not in tests]


class Program:
    """The functions of some crates, and the calls between them."""

    def __init__(self, crates: Iterable[str]) -> None:
        self.files = {(it.crate, it.module): it for crate in crates for it in sources(crate)}
        self.functions = [it for file in self.files.values() for it in file.functions]
        self.free: dict[str, list[Function]] = collections.defaultdict(list)
        self.methods: dict[str, list[Function]] = collections.defaultdict(list)
        for function in self.functions:
            (self.methods if function.owner else self.free)[function.name].append(function)
        self.crates = set(crates)

    def named(self, words: list[str], file: Source) -> Iterator[Function]:
        """The functions that the words name."""
        for at, word in enumerate(words):
            if not re.match(r"[A-Za-z_]", word) or (word not in self.free and word not in self.methods):
                continue
            before = words[at - 1] if at else ""
            if before == ".":
                yield from self.methods.get(word, [])
            elif before == "::":
                yield from self.by_path(words, at, file)
            else:
                yield from self.by_name(word, file)

    def by_path(self, words: list[str], at: int, file: Source) -> list[Function]:
        """The functions of the name at `at`, which stands behind a path: of the type or the module before it, else of any."""
        front = words[at - 2]
        whole = file.uses.get(front, (front,))[-1]
        methods = self.methods.get(words[at], [])
        of_type = [it for it in methods if it.owner == whole]
        free = [it for it in self.free.get(words[at], []) if whole in (it.module, it.crate)]
        crate = [it for it in self.free.get(words[at], []) if it.crate == file.crate]
        if of_type or free:
            return of_type + free
        if front in ("crate", "super", "self"):
            return crate
        # Behind a type parameter, `Self` or a type of another name the method is any of that name.
        return methods + self.free.get(words[at], [])

    def by_name(self, word: str, file: Source) -> list[Function]:
        """The free functions that a bare name may mean: one of the same file, or the one that a `use` brings in."""
        own = [it for it in self.free.get(word, []) if (it.crate, it.module) == (file.crate, file.module)]
        if own:
            return own
        path = file.uses.get(word)
        if not path:
            return []
        crate = file.crate if path[0] in ("crate", "super", "self") else path[0]
        return [it for it in self.free.get(path[-1], []) if it.crate == crate] or self.free.get(path[-1], [])

    def reached(self, crate: str, name: str) -> set[Mark]:
        """What a call of the function leads to. What stands outside of functions, and what meets a trait of std, counts as called."""
        todo = [it for it in self.functions if it.crate == crate and it.name == name and not it.owner]
        here = self.traits_here()
        todo += [it for it in self.functions if it.foreign and it.foreign not in here]
        for file in self.files.values():
            todo += list(self.named(file.outside, file))
        seen: set[Mark] = set()
        while todo:
            function = todo.pop()
            if function.mark not in seen:
                seen.add(function.mark)
                todo += self.named(function.words, self.files[function.crate, function.module])
        return seen

    def traits_here(self) -> set[str]:
        found: set[str] = set()
        for crate in self.crates:
            folder = f"{ROOT}/crates/{crate}/src"
            for name in os.listdir(folder):
                if name.endswith(".rt"):
                    with open(f"{folder}/{name}", encoding="utf-8") as text:
                        found.update(re.findall(r"^\s*(?:pub )?trait (\w+)", text.read(), flags=re.M))
        return found

    def unreached(self, crate: str, name: str) -> list[str]:
        """The functions, as crate::module::Type::name, that no call from there leads to; laws are left out."""
        seen = self.reached(crate, name)
        left = set()
        for function in self.functions:
            if function.mark not in seen and function.module.split("_")[-1] not in ("law", "laws"):
                left.add("::".join(filter(None, (function.crate, function.module, function.owner, function.name))))
        return sorted(left)
