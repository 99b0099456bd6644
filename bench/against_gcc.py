#!/usr/bin/env python3
"""Holds Morpheus against gcc on random projects, and ends with 1 where they differ.

  bench/against_gcc.py check NUMBER SEED     is each product accepted by both, or refused by both?
  bench/against_gcc.py rename NUMBER SEED    does each product stay as it was?
  bench/against_gcc.py run NUMBER SEED       does the program put out the same?

A project has up to four features, up to three files and sometimes a constraint; half of them are right in most products, the others are
wilder, and a third has a word or a line more or less. `check` must name the least product that `run` refuses by itself, and gcc, as
strict as it can be, must refuse the same products. A renaming must change the tokens that it counts and no byte else, leave each product
accepted or refused as it was, with the same tokens but for the name, and the same machine code. A program of `run` must print what gcc's
prints, unless one of them says that it is undefined: gcc's sanitizers must not find what Morpheus doesn't.

Each case is made from SEED and its number, which are printed where the two differ. Two differences are counted and no fault: gcc links
products that use an undefined name in code that can't run, and its sanitizers don't see all that is undefined. Needs Python 3 and gcc.
"""

import itertools
import random
import re
import subprocess
import sys
import tempfile
from collections import Counter
from pathlib import Path

PROGRAM = Path(__file__).resolve().parent.parent / "build" / "morpheus"
STRICT = ["-std=c11", "-pedantic-errors", "-O0", "-fno-builtin", "-fkeep-static-functions"]
STRICT += [f"-Werror={it}" for it in ("implicit-function-declaration", "implicit-int", "int-conversion", "incompatible-pointer-types")]
SANITIZED = ["-std=c11", "-w", "-O0", "-fsanitize=undefined,address", "-fno-sanitize-recover=all"]
INTEGERS = ["int", "long", "char", "unsigned", "unsigned char", "unsigned long"]
CONSTANTS = ["0", "1", "2", "7", "'a'", "-1", "3u", "5l", "(1 + 2)", "0x10"]
BINARY = "+ - * / % << >> < > == != & | ^ && ||".split()
KEYWORDS = set("int long char unsigned struct void if else while for return static extern break continue do defined".split())
DIRECTIVES = set("ifdef ifndef endif define undef include elif".split())
TOKEN = re.compile(r"[A-Za-z_]\w*|\d\w*|'(?:\\.|[^'])*'|\"(?:\\.|[^\"])*\"|<<=|>>=|->|\+\+|--|<<|>>|[<>=!+\-*/%&^|]=|&&|\|\||\S")


def ran(words, folder, stdin=b""):
    """The status and what is put out, and what is said of errors."""
    it = subprocess.run(words, cwd=folder, input=stdin, capture_output=True, timeout=60)
    return it.returncode, it.stdout.decode("latin1"), it.stderr.decode("latin1")


class Choices:
    """Random choices, the same for the same seed."""

    def __init__(self, seed):
        self.random = random.Random(seed)

    def any(self, of):
        return self.random.choice(of)

    def may(self, share):
        return self.random.random() < share

    def several(self, least, most, make):
        """The lines of so many things."""
        return list(itertools.chain.from_iterable(make() for _ in range(self.random.randint(least, most))))


class Words(Choices):
    """Random words of C. How wild they are is the share of those that need not be right."""

    names, functions, tags, members = ["a", "b", "c", "d"], ["f", "g", "h"], ["s", "t"], ["m", "n", "k"]

    def __init__(self, seed):
        super().__init__(seed)
        self.wild = self.any([0, 0.03, 0.03, 0.1, 0.4])
        self.features = [f"F{i}" for i in range(self.random.randint(1, 4))]

    def condition(self):
        one, other = self.any(self.features), self.any(self.features)
        forms = ["#ifdef {}", "#ifndef {}", "#if defined({})", "#if !defined {}", "#if defined({}) && defined({})", "#if {} || defined({})", "#if !({})", "#if {} - 1"]
        return self.any(forms).format(one, other)

    def under(self, lines, otherwise=None, share=0.3):
        """The lines, sometimes in a group, with other lines in its other branch."""
        if not self.may(share):
            return lines
        group = [self.condition(), *lines]
        if otherwise and self.may(0.5):
            group += [self.any(["#else", f"#elif {self.any(self.features)}"]), *otherwise]
        return [*group, "#endif"]

    def declaration(self, name):
        kind = self.any(["plain", "pointer", "array", "struct"]) if self.may(self.wild * 2) else "plain"
        type_ = self.any(INTEGERS)
        value = f" = {self.any(CONSTANTS)}" if self.may(0.4) else ""
        return {
            "plain": f"{type_} {name}{value}",
            "pointer": f"{type_} *{name}",
            "array": f"{type_} {name}[{self.random.randint(1, 4)}]",
            "struct": f"struct {self.any(self.tags)} {name}",
        }[kind]

    def wilder(self, depth):
        name, inner = self.any(self.names), self.expression(depth + 1)
        member = self.any(self.members)
        forms = [f"{name}[{inner}]", f"{name}.{member}", f"{name}->{member}", f"&{name}", f"*{name}", f"{name}++", f"({name} <<= {inner})", f"{self.any(self.functions)}({inner}, 1)"]
        return self.any(forms)

    def expression(self, depth=0):
        if depth > 2 or self.may(0.25):
            return self.any(CONSTANTS)
        if self.may(0.4):
            return self.any(self.names)
        if self.may(self.wild):
            return self.wilder(depth)
        one, other = self.expression(depth + 1), self.expression(depth + 1)
        forms = [f"({one} {self.any(BINARY)} {other})"] * 6
        forms += [f"({self.any(INTEGERS)})({one})", f"{self.any('-!~+')}({one})", f"({one} ? {other} : 1)", f"{self.any(self.functions)}({one})", f"M({one})", "N"]
        return self.any(forms)

    def block(self, depth):
        return ["{", *self.several(1, 3, lambda: self.statement(depth + 1)), "}"]

    def statement(self, depth=0):
        name = self.any(self.names)
        simple = [f"{name} {self.any(['=', '+=', '-='])} {self.expression()};", f"{self.expression()};", f"{self.declaration(name)};", f"{self.any(self.functions)}({self.expression()});"]
        if self.may(self.wild):
            simple += ["break;", "continue;", "return;", ";"]
        lines = [self.any([*simple, f"return {self.expression()};"])]
        if depth < 3 and self.may(0.3):
            heads = [f"if ({self.expression()})", f"while ({self.expression()})", f"for ({self.declaration(name)}; {self.expression()}; {name}++)", ""]
            lines = [self.any(heads), *self.block(depth)]
            lines += ["else", *self.block(depth)] if lines[0].startswith("if") and self.may(0.3) else []
        return self.under([it for it in lines if it], [f"{name} = {self.expression()};"], 0.28)

    def parameters(self):
        named = self.random.sample(self.names, self.any([0, 1, 1, 2]))
        return ", ".join(self.any([f"int {it}", f"{self.any(INTEGERS)} *{it}", f"int {it}[]", f"struct s {it}"]) for it in named) or "void"

    def wild_item(self):
        name, function, result = self.any(self.names), self.any(self.functions), self.any([*INTEGERS, "void"])
        storage = self.any(["", "", "static ", "extern "])
        members = itertools.chain.from_iterable(self.under([f"{self.declaration(it)};".split(" =")[0].rstrip(";") + ";"], [f"int {it};"]) for it in self.random.sample(self.members, 2))
        forms = [
            [f"{storage}{self.declaration(name)};"],
            [f"struct {self.any(self.tags)} {{", *members, "};"],
            [f"struct {self.any(self.tags)};"],
            [f"{storage}{result} {function}({self.parameters()});"],
            [f"{storage}{result} {function}({self.parameters()})", *self.block(0)],
            [self.any([f"#define N {self.any(CONSTANTS)}", "#undef N", "#define M(x) (x)", "#define M(y) ((y) + N)", "#undef M", "#define M 3"])],
        ]
        return self.any(forms)

    def item(self, depth=0):
        name = f"{self.any('uvw')}{self.random.randint(0, 30)}"
        forms = [
            [f"int {name};"],
            [f"static long {name} = {self.any(CONSTANTS)};"],
            [f"int {name}(int a, int b) {{ return a + b; }}"],
            [f"int {name}(int);"],
            [f"struct {name} {{", "int m;", "long n;", "};"],
            ["#undef N", f"#define N {self.any(CONSTANTS)}"],
            [f"static int {name}(int a)", "{", *self.statement(), "return a;", "}"],
        ]
        lines = self.wild_item() if self.may(self.wild * 2) else self.any(forms)
        return self.under(lines, self.item(depth + 1) if depth < 2 else None, 0.45)

    def unit(self, is_main):
        """A unit with the names that its expressions use, most of them declared in all products."""
        storage = "" if is_main else "static "
        lines = ["struct s { int m; long n; int k; };", "struct t { char m; };", "#define N 4", "#define M(x) (x)"]
        for name in self.names:
            lines += self.under([f"{storage}{self.any(['int', 'int', 'long', 'unsigned'])} {name};"], [f"long {name};"], 0.25)
        for function in self.functions:
            lines += self.under([f"{storage}int {function}(int x) {{ return x; }}"], [f"long {function}(long x) {{ return x + 1; }}"], 0.25)
        lines = [it for it in lines if not self.may(self.wild / 4)] + self.several(0, 3, self.item)
        if is_main:
            lines += ["int main(void)", *self.block(0)[:-1], "return 0;", "}"]
        return lines


class Project:
    """A random project, in the folder."""

    def __init__(self, seed, folder):
        words = Words(seed)
        self.words, self.folder, self.features = words, folder, words.features
        self.units = [("m.c", None)]
        self.files = {"m.c": words.unit(True)}
        if words.may(0.35):
            self.units.append(("n.c", words.any([None, None, words.any(self.features)])))
            self.files["n.c"] = words.unit(False)
        if words.may(0.3):
            for lines in self.files.values():
                lines[:0] = words.under(['#include "h.h"'], None, 0.2)
            self.files["h.h"] = ["#ifndef H", "#define H", *words.several(0, 3, words.item), "#endif"]
        self.constraint = (words.any(self.features), words.any(self.features)) if words.may(0.3) else None
        if words.may(0.33):
            self.change()
        self.write()

    def change(self):
        """One word or line more or less; what may stand in a block alone is put anywhere."""
        lines = self.files[self.words.any(sorted(self.files))]
        i = self.words.random.randrange(len(lines))
        simple = [it for it in lines if it.endswith(";") and not re.search(r"struct|static|extern|[({]", it)]
        word = lines[i].split(" ")
        word[self.words.random.randrange(len(word))] = self.words.any(["", "x", ";", "(", "}", "a"])
        lines[i : i + 1] = self.words.any([[], [lines[i]] * 2, [" ".join(word)], [lines[i], self.words.any(simple or [";"])]])

    def write(self):
        listed = ", ".join(f'"{it}"' for it in self.features)
        text = f"features = [{listed}]\n"
        text += 'constraints = ["{} -> {}"]\n'.format(*self.constraint) if self.constraint else ""
        text += 'headers = ["h.h"]\n' if "h.h" in self.files else ""
        for unit, when in self.units:
            text += f'[[unit]]\nfile = "{unit}"\n' + (f'when = "{when}"\n' if when else "")
        (self.folder / "p.toml").write_text(text)
        for name, lines in self.files.items():
            (self.folder / name).write_text("\n".join(lines) + "\n")

    def products(self):
        """The products that the constraint admits, the least first."""
        for on in itertools.product([False, True], repeat=len(self.features)):
            chosen = [it for it, is_on in zip(self.features, on) if is_on]
            if not self.constraint or self.constraint[0] not in chosen or self.constraint[1] in chosen:
                yield chosen

    def present(self, chosen):
        return [unit for unit, when in self.units if not when or when in chosen]

    def built(self, chosen, folder):
        """Whether gcc compiles the product's units, and whether it links them too."""
        defined, units = [f"-D{it}" for it in chosen], self.present(chosen)
        for unit in units:
            if ran(["gcc", *STRICT, *defined, "-c", "-o", unit + ".o", unit], folder)[0]:
                return False, False
        linked = bool(units) and ran(["gcc", "-no-pie", "-o", "product", *[it + ".o" for it in units]], folder)[0] == 0
        return True, linked

    def tokens(self, chosen, folder):
        """The tokens of the product's units, as gcc preprocesses them."""
        defined = [f"-D{it}" for it in chosen]
        texts = [ran(["gcc", "-std=c11", "-E", "-P", *defined, it], folder)[1] for it in self.present(chosen)]
        return [token for it in texts for token in TOKEN.findall(it)]


class Comparison:
    """What has been compared, and what differs."""

    def __init__(self):
        self.counts, self.differences = Counter(), 0

    def differ(self, case, *what):
        self.differences += 1
        print("differ:", case, *what, flush=True)


def compare_check(case, folder, found):
    project = Project(case, folder)
    said = ran([PROGRAM, "check", "p.toml"], folder)[1].strip()
    wanted = "accepted"
    for chosen in project.products():
        names = ",".join(chosen) or "-"
        answer = ran([PROGRAM, "run", "p.toml", names, "0", "-"], folder)[1].strip()
        refused = answer.startswith("not accepted ") and answer.split()[-1]
        if refused and wanted == "accepted":
            wanted = f"broken {refused} at {names}"
        compiled, linked = project.built(chosen, folder)
        found.counts[f"products, {refused or 'accepted'}"] += 1
        if refused == "link" and compiled and linked:
            found.counts["products that only gcc links"] += 1
        elif linked == bool(refused):
            found.differ(case, names, answer, "gcc:", linked)
    found.counts[" ".join(said.split()[:2])] += 1
    if said != wanted:
        found.differ(case, "check:", said, "product by product:", wanted)


def machine_code(folder):
    text = ran(["objdump", "-d", "--no-show-raw-insn", "--no-addresses", "product"], folder)[1]
    return re.sub(r"<[^>]*>", "", text)


def renamed_tokens(before, after, old, new):
    """How many tokens are renamed, or None where something else differs."""
    pairs = list(itertools.zip_longest(TOKEN.findall(before), TOKEN.findall(after)))
    changed = [it for it in pairs if it[0] != it[1]]
    same_gaps = TOKEN.sub("", before) == TOKEN.sub("", after)
    return len(changed) if same_gaps and set(changed) <= {(old, new)} else None


def compare_renaming(case, project, said, old, new, found):
    folder, out = project.folder, project.folder / "out"
    counts = [renamed_tokens((folder / it).read_text(), (out / it).read_text(), old, new) for it in project.files]
    if None in counts or f"renamed {sum(counts)} tokens" not in said or (out / "p.toml").read_bytes() != (folder / "p.toml").read_bytes():
        found.differ(case, old, new, said, counts)
    for chosen in project.products():
        one, other = project.built(chosen, folder), project.built(chosen, out)
        pairs = itertools.zip_longest(project.tokens(chosen, folder), project.tokens(chosen, out))
        if one != other or any(p != q and (p, q) != (old, new) for p, q in pairs):
            found.differ(case, old, new, chosen, one, other)
        elif one[1] and machine_code(folder) != machine_code(out):
            found.differ(case, old, new, chosen, "other machine code")


def compare_rename(case, folder, found):
    project = Project(case, folder)
    words = project.words
    accepted = ran([PROGRAM, "check", "p.toml"], folder)[1].startswith("accepted")
    for _ in range(4 if accepted else 1):
        name = words.any(sorted(project.files))
        places = [it for it in re.finditer(r"[A-Za-z_]\w*", (folder / name).read_text()) if it[0] not in KEYWORDS | DIRECTIVES]
        place, new = words.any(places), words.any(["fresh", "fresh", "a", "b", "x", "m", "n", "s", "f", "N", "H", "putchar"])
        before = {it: (folder / it).read_bytes() for it in [*project.files, "p.toml"]}
        ran(["rm", "-rf", "out"], folder)
        status, said, _ = ran([PROGRAM, "rename", "p.toml", f"{name}@{place.start()}", new, "out"], folder)
        found.counts[" ".join(said.split()[:2]) if status == 1 else said.split()[0]] += 1
        if before != {it: (folder / it).read_bytes() for it in before} or (status and (folder / "out").exists()):
            found.differ(case, place[0], new, "files were touched")
        if status == 0:
            compare_renaming(case, project, said, place[0], new, found)


class Program(Choices):
    """A random program without what C leaves to the compiler: its operands have no effects."""

    def __init__(self, seed):
        super().__init__(seed)
        self.loops = 0

    def type(self):
        return self.any(INTEGERS)

    def place(self):
        return self.any(["a", "b", "c", "d", "e", "q.m", "q.n", "list[0]", "list[b & 3]", "*p", "shared"])

    def constant(self):
        return self.any(["0", "1", "3", "10", "255", "'a'", "'\\n'", "127", "128", "65535", "2147483647", "1u", "3l", "0xffu", "017", "4294967295", "-1", "(-128)"])

    def expression(self, depth=0):
        if depth > 3 or self.may(0.25):
            return self.any([self.constant(), self.place(), self.place()])
        one, other = self.expression(depth + 1), self.expression(depth + 1)
        forms = [f"({one} {self.any('+ - * & | ^ < > <= >= == != && ||'.split())} {other})"] * 6
        forms += [f"({self.type()})({one})", f"{self.any('-~!+')}({one})", f"({one} ? {other} : {one})", f"f({one}, {other})", "h(q).m"]
        forms += [f"({one} {self.any(['<<', '>>'])} ({other} & 7))", f"({one} {self.any('/%')} ({other} | 1))"]
        return self.any(forms)

    def block(self, depth):
        return ["{", *self.several(1, 3, lambda: self.statement(depth + 1)), "}"]

    def loop(self, depth):
        self.loops += 1
        name, turns = f"i{self.loops}", self.random.randint(0, 3)
        leave = [f"if ({self.expression()})", self.any(["break;", "continue;"])] if self.may(0.2) else []
        inside = [*self.block(depth)[:-1], *leave, "}"]
        forms = [
            [f"for (int {name} = 0; {name} < {turns}; {name}++)", *inside],
            ["{", f"int {name} = {turns};", f"while ({name}-- > 0)", *inside, "}"],
            ["{", f"int {name} = {turns};", "do", *self.block(depth), f"while (--{name} > 0);", "}"],
        ]
        return self.any(forms)

    def statement(self, depth=0):
        if depth < 3 and self.may(0.15):
            return self.loop(depth)
        if depth < 3 and self.may(0.12):
            return [f"if ({self.expression()})", *self.block(depth), "else", *self.block(depth)]
        forms = [f"{self.place()} {self.any(['=', '=', '+=', '-=', '*=', '^=', '|='])} {self.expression()};", f"out({self.expression()});"] * 3
        forms += ["q = h(q);", f"p = {self.any(['&one', 'list', 'list + 1', '&list[2]'])};", f"{self.place()}++;", "a = getchar();", f"putchar({self.expression()});"]
        return [self.any(forms)]

    def text(self):
        lines = ["#include <stdio.h>", "#include <stdlib.h>", f"struct s {{ int m; {self.type()} n; }};", f"static {self.type()} shared = 3;"]
        lines += ["void digits(unsigned long v)", "{", "if (v > 9)", "digits(v / 10);", "putchar('0' + v % 10);", "}"]
        lines += ["void out(long v)", "{", "if (v < 0)", "{", "putchar('-');", "digits(0ul - (unsigned long)v);", "}", "else", "digits(v);", "putchar(' ');", "}"]
        lines += [f"{self.type()} f({self.type()} x, {self.type()} y)", "{", f"return {self.any(['x + y', 'x - y', 'x ^ y', 'x > y ? x : y', '(x & 255) * (y & 15)'])};", "}"]
        lines += ["struct s h(struct s v)", "{", f"v.m = {self.any(['v.n', 'v.m ^ 5', '3'])};", "return v;", "}", "int main(void)", "{"]
        lines += [f"{self.type()} {it} = {self.random.randint(0, 9)};" for it in "abcde"]
        lines += ["int one = 5;", "int list[4] = { 1, 2, 3 };", "struct s q = { 4, 5 };", "int *p = list;"]
        lines += self.several(4, 14, self.statement)
        lines += [f"out({it});" for it in ("a", "b", "c", "d", "e", "q.m", "q.n", "*p", "list[3]", "shared")]
        return "\n".join([*lines, self.any(["return 0;", "exit(3);", "return a & 7;", ""]), "}", ""])


def compare_run(case, folder, found):
    (folder / "p.toml").write_text('features = []\n[[unit]]\nfile = "m.c"\n')
    (folder / "m.c").write_text(Program(case).text())
    (folder / "in").write_bytes(b"xy\n")
    if ran(["gcc", *SANITIZED, "-o", "product", "m.c"], folder)[0]:
        return found.differ(case, "gcc refuses the program")
    status, printed, errors = ran(["./product"], folder, b"xy\n")
    answer = ran([PROGRAM, "run", "p.toml", "-", "100000", "in"], folder)[1]
    output, _, end = answer.rstrip("\n").rpartition("\n")
    seen = "runtime error" in errors or "Sanitizer" in errors
    found.counts[f"{end.split()[0]}, {'undefined' if seen else 'ended'} for gcc"] += 1
    if end != "undefined" and (seen or (output, end) != (printed, f"ended {status}")):
        found.differ(case, end, output[-60:], "gcc:", status, printed[-60:])


def main(kind, number, seed):
    compare = {"check": compare_check, "rename": compare_rename, "run": compare_run}[kind]
    found = Comparison()
    for i in range(int(number)):
        with tempfile.TemporaryDirectory() as folder:
            compare(f"{seed}/{i}", Path(folder), found)
    for what, count in sorted(found.counts.items()):
        print(f"{count:6} {what}")
    return 1 if found.differences else 0


if __name__ == "__main__":
    if len(sys.argv) != 4 or sys.argv[1] not in ("check", "rename", "run"):
        sys.exit(__doc__)
    sys.exit(main(*sys.argv[1:]))
