"""Texts that nobody would write: those of cases/ and examples/, changed token by token as a seed has it."""
import collections
import glob
import os
import random
import re

from program import ROOT
from scripts import cases

MOST_BYTES = 20_000  # of a text that is changed
MOST_MADE = 200_000  # of one that comes out
Corpus = collections.namedtuple("Corpus", "groups fine checkers sources")
LARGE = ("large/", "reading/")  # cases with files at the limits
TOKEN = re.compile(
    rb"""\s+|/\*.*?\*/|//[^\n]*|[A-Za-z_][A-Za-z_0-9]*|\.?[0-9][A-Za-z_0-9.]*|"(?:\\.|[^"\\\n])*"|'(?:\\.|[^'\\\n])*'"""
    rb"""|==>|<<=|>>=|\.\.\.|->|\+\+|--|&&|\|\||<<|>>|[-+*/%&|^=!<>]=|.""", re.DOTALL)
NAME = re.compile(rb"[A-Za-z_][A-Za-z_0-9]*")
KEYWORDS = set(b"int char void struct union enum typedef static extern const unsigned long if else while for do switch case default break "
               b"continue return goto sizeof sm state decl start err true false mc_identifier any_pointer any_expr any_scalar".split())
# what readers stumble over: half tokens, odd bytes, limits, words with a meaning of their own
ODD = [b"\0", b"\r", b"\r\n", b"\xff", b"\xc3\xa9", b"@", b"\\", b"#", b"\n# 1 \"b.c\"\n", b"\n#pragma x\n", b"\"", b"'", b"''", b"/*", b"*/",
       b"//", b"0x", b"08", b"1e", b"0xffffffffffffffff", b"18446744073709551616", b"1ull", b"L\"a\"", b"L'", b"...", b"==>", b"$",
       b"${ mc_is_call_to(v, \"f\") }", b"$end_of_path$", b"__attribute__", b"__attribute__((", b"__extension__", b"asm(\"\")",
       b"__builtin_va_arg(a, int)", b"__builtin_offsetof(struct s, a)", b"sizeof", b"typedef", b"struct s", b"enum { A }", b"union",
       b"int", b"char *", b"void", b"unsigned long long", b"static", b"extern", b"return", b"goto a;", b"a:", b"case 1:", b"default:",
       b"break;", b"if (", b"else", b"while (", b"for (;;)", b"do {", b"switch (", b"sm m {", b"state decl", b"decl any_pointer v;",
       b"start:", b"v.stop", b"err(\"%s\", mc_identifier(v));", b"(", b")", b"{", b"}", b"[", b"]", b";", b",", b"=", b"*", b"&", b"?", b":"]
BRACKETS = [(b"(", b")"), (b"{", b"}"), (b"[", b"]"), (b"*(", b")"), (b"f(", b")"), (b"{ ", b" ;}"), (b"!", b""), (b"(int)", b"")]
WORDS = [[], [], [], ["--depth", "0"], ["--depth=8"], ["--format", "table"], ["--format=json"], ["--depth", "1", "--format", "json"], ["--"]]
ODD_WORDS = [["--depth", "9"], ["--stats", "--depth", "1"], ["--format", "xml"], ["-"], ["none.c"], ["."], ["--generate", "3"], ["--", "--"]]


def texts_of_cases():
    """The case, the name and the bytes of the files of all cases, those of rows too, and whether they are read."""
    runner = cases()
    for case in (it for it in runner.all_cases() if not it.startswith(LARGE)):
        parts = runner.sections(os.path.join(runner.CASES, case + ".case"))
        is_fine = any(title.startswith("rows") or title == "status" and text.strip() in ("0", "1") for title, text in parts)
        for title, text in parts:
            kind, *name = title.split()
            if kind == "file":
                yield case, name[0], runner.contents(name[1:], text), is_fine
            elif kind == "rows":
                for line in text.splitlines():
                    fault, _, row = line.partition(": ")
                    yield case, name[0], runner.spelled(row), fault == "read"


def texts_of_examples():
    """The folder, the name and the bytes of the files of examples/, which all are read, without the lines of C files that only a preprocessor takes."""
    for path in sorted(glob.glob(os.path.join(ROOT, "examples", "**", "*.*"), recursive=True)):
        if path.endswith((".c", ".metal")):
            with open(path, "rb") as file:
                text = file.read()
            text = re.sub(rb"(?m)^[ \t]*#(?! [0-9]).*$", b"", text) if path.endswith(".c") else text
            yield os.path.dirname(path), path, text, True


def corpus():
    """The texts that are changed, as lists of tokens: by group, where a group has checkers and C files, those of them that are read, and
    all."""
    groups, fine, texts = {}, {}, ({}, {})
    for group, name, text, is_fine in [*texts_of_cases(), *texts_of_examples()]:
        if 0 < len(text) <= MOST_BYTES:
            kind = 0 if name.endswith(".metal") else 1
            tokens = texts[kind].setdefault(text, TOKEN.findall(text))
            for found in [groups, fine][:1 + is_fine]:
                found.setdefault(group, ([], []))[kind].append(tokens)
    pairs = ([pair for pair in found.values() if all(pair)] for found in (groups, fine))
    return Corpus(*pairs, *(list(it.values()) for it in texts))


def piece(rng, tokens, most=12):
    """The ends of a piece of a list, of at most so many tokens."""
    at = rng.randrange(len(tokens) + 1)
    return at, min(len(tokens), at + 1 + int(rng.expovariate(0.5)) % most)


def cut(rng, tokens, _):
    """Without a piece, or without all behind a place."""
    at, end = piece(rng, tokens)
    return tokens[:at] + (tokens[end:] if rng.random() < 0.9 else [])


def double(rng, tokens, _):
    """With a piece many times."""
    at, end = piece(rng, tokens)
    return tokens[:end] + tokens[at:end] * rng.choice([1, 1, 1, 2, 3, 17, 70, 300]) + tokens[end:]


def swap(rng, tokens, _):
    """With two pieces that lie side by side turned round."""
    at, middle = piece(rng, tokens)
    end = min(len(tokens), middle + middle - at)
    return tokens[:at] + tokens[middle:end] + tokens[at:middle] + tokens[end:]


def replace(rng, tokens, others):
    """With something in the place of a token: something odd, or a token of another text."""
    at = rng.randrange(len(tokens) + 1)
    new = rng.choice(ODD) if rng.random() < 0.5 else rng.choice(rng.choice(others))
    return tokens[:at] + [new] + tokens[at + rng.choice([0, 1, 1]):]


def splice(rng, tokens, others):
    """With a piece of another text."""
    at, other = rng.randrange(len(tokens) + 1), rng.choice(others)
    start, end = piece(rng, other, 40)
    return tokens[:at] + other[start:end] + tokens[at:]


def wrap(rng, tokens, _):
    """With a piece in many brackets."""
    at, end = piece(rng, tokens, 4)
    left, right = rng.choice(BRACKETS)
    times = rng.choice([1, 2, 3, 40, 500, 994, 1000, 1500])
    return tokens[:at] + [left] * times + tokens[at:end] + [right] * times + tokens[end:]


def exchange(rng, tokens, _):
    """With a token in the place of another of its kind, a name for a name or a number for a number."""
    kinds = [0 if token.isdigit() else 1 if NAME.fullmatch(token) and token not in KEYWORDS else 2 for token in tokens]
    places = [at for at, kind in enumerate(kinds) if kind < 2]
    if not places:
        return tokens
    at = rng.choice(places)
    return tokens[:at] + [tokens[rng.choice([other for other in places if kinds[other] == kinds[at]])]] + tokens[at + 1:]


def repeat(rng, tokens, _):
    """With what ends in a semicolon once more, behind another semicolon or a brace."""
    ends = [0, *(at + 1 for at, token in enumerate(tokens) if token in (b";", b"{", b"}"))]
    pieces = [(start, end) for start, end in zip(ends, ends[1:]) if tokens[end - 1] == b";"]
    if not pieces:
        return tokens
    (start, end), to = rng.choice(pieces), rng.choice(ends[1:])
    return tokens[:to] + tokens[start:end] + tokens[to:]


CHANGES = [cut, cut, double, swap, replace, replace, replace, splice, wrap, exchange, exchange, repeat, repeat]
GENTLE = [exchange, exchange, exchange, repeat]  # behind which many a text is read still


def changed(rng, tokens, others, changes):
    """A text that is changed a few times, each time in one of these ways."""
    for _ in range(rng.choice([1, 1, 1, 1, 2, 2, 3, 5, 8])):
        made = rng.choice(changes)(rng, tokens, others)
        if sum(map(len, made)) <= MOST_MADE:
            tokens = made
    return tokens


def run_of(texts, seed):
    """The files and the words of the run of a seed: a checker and C files, of which one kind or both are changed. Half of the seeds begin
    with texts that are read, and change them gently."""
    rng = random.Random(seed)
    is_gentle = rng.random() < 0.5
    of_one_group = rng.choice(texts.fine if is_gentle else texts.groups)
    checkers, sources = of_one_group if is_gentle or rng.random() < 0.7 else (texts.checkers, texts.sources)
    files = {"m.metal": rng.choice(checkers), "a.c": rng.choice(sources)}
    if rng.random() < 0.2:
        files["b.c"] = rng.choice(sources)
    which = rng.choice(["checker", "source", "source", "both"])
    for name, tokens in files.items():
        is_checker = name == "m.metal"
        if which == "both" or (which == "checker") == is_checker:
            others = texts.checkers if is_checker else texts.sources
            files[name] = changed(rng, tokens, others, GENTLE if is_gentle else CHANGES)
    words = rng.choice(ODD_WORDS) if rng.random() < 0.05 else rng.choice(WORDS)
    return {name: b"".join(tokens) for name, tokens in files.items()}, [*words, *files]
