#!/usr/bin/env python3
"""Spell the repository's own names of definitions and lemmas by the rules of CONTRACT_STYLE.md.

    python3 tools/respell.py            at the top of a checkout: rewrite crates/ in place
    python3 tools/respell.py --text     the same change to a text, from standard input to standard output

A word is in snake case. A dash joins two names of functions, as in `length-drop`; a plain word is
added with `_`, as in `get_or-set_same`. A lemma that would have its definition's name ends in `_lem`.
Names with a capital first, operators, and names from elsewhere stay.

What is renamed are names that a file of crates/*/specs/ or crates/*/proofs/ declares. The names that a
file Proof.antt declares name goals of a function, and stay. The first form writes the old and the new
names to respell.tsv beside this script, and the second reads them there. It stops with an error where
two names would fall together and the tables below do not say what to do.
"""

import collections
import re
import sys
from pathlib import Path

MAP = Path(__file__).with_name("respell.tsv")

# Words of std and of the prelude that stand for functions on each side of a dash.
STD_WORDS = set(
    "length take drop set sets get_or replicate append cons nil zero suc add sub mul div mod eq ne le lt eqb leb"
    " ltb cond map sum min max not and or refl".split()
)

# Words that a name cannot be.
RESERVED = set(
    "in as data record open use where let ruleset elim rw simp search ground assumption omega pub mod module abbrev"
    " unfoldable unfolding absurd at record if then else match fn self result ghost struct enum impl trait".split()
)

# New names that the rules do not give: old name, new name.
BY_HAND = {
    # definitions, whose plain spelling another definition or lemma has
    "goesOn": "continues",
    "inOrder": "writes_in_order",
    "isOpen": "has_open_release",
    "newHome": "new_home_of",
    "noneOpen": "no_open_release",
    "oneMore": "one_added",
    "someBelow": "any_below",
    # lemmas of definitions that proofs/ has
    "book-after": "book_after_lem",
    "closed-books": "closed_books_lem",
    "comes-to": "comes_to_lem",
    "label-at": "label_at_lem",
    "marked-below": "marked_below_lem",
    "marks-on": "marks_on_lem",
    "run-prices": "run_prices_lem",
    # fields and constructors, beside definitions of the same spelling
    "no-page": "is_no_page",
    "none-shown": "shows_none",
    "open-flag": "at_open_flag",
    "open-release": "start_release",
    "own-desk": "at_own_desk",
    "on-page": "is_on_page",
    "own-stamp": "at_own_stamp",
    "page-word": "word_in_page",
    "record-done": "at_record_done",
    "record-stamp": "at_record_stamp",
    "release-desk": "at_release_desk",
    "release-number": "at_release_number",
    "same-words": "words_same",
    "steps-made": "at_steps_made",
    "under-way": "is_under_way",
    # words of a sentence that only happen to be names of functions
    "close-not-open": "close_not_open",
    "count-one-more": "count_one_more",
    "in-or-not": "in_or_not",
    "names-first-label": "names_first_label",
    "next-names-live": "next_names_live",
    "runs-and-marks-most": "runs_and_marks_most",
    "runs-and-marks-ones": "runs_and_marks_ones",
    "runs-and-marks-step": "runs_and_marks_step",
    "set-and-kept": "set_and_kept",
}

STOPS = r"\s(){}.;,@\"«»\[\]\\`"
TOKEN = re.compile(rf"[^{STOPS}]+")
DECLARED = re.compile(r"^( *)((?:abbrev |unfoldable |pub )*)([^\s(){}:|-][^\s(){}:|]*) ?:(?= |$)")
BLOCK = re.compile(r"^( *)(?:(?:abbrev |unfoldable |pub )*)(record|data|module)\b")
# what follows a call's name in a fact that a proof has at hand: such a name is that of a Rust function
OF_A_CALL = re.compile(r"\.(ensures|requires|result|args)\b")


# ---- files


def antt_files():
    return sorted(p for p in Path("crates").glob("*/*/**/*.antt") if p.parts[2] in ("specs", "proofs"))


def rt_files():
    return sorted(Path("crates").glob("*/src/**/*.rt"))


def names_goals(path):
    return path.name == "Proof.antt"


# ---- what is declared


def declared(path):
    """The names that a file declares, each with its kind: top, field, constructor or local."""
    blocks, waiting = [], None
    for line in path.read_text().split("\n"):
        if not line.strip() or line.lstrip().startswith("--"):
            continue
        indent = len(line) - len(line.lstrip())
        while blocks and indent <= blocks[-1][0]:
            blocks.pop()
        if waiting and indent <= waiting[0]:
            waiting = None
        kind = blocks[-1][1] if blocks else "top"
        name = DECLARED.match(line)
        if name and not waiting:
            yield name.group(3), kind
        head = BLOCK.match(line)
        if head:
            inner = {"record": "field", "data": "constructor", "module": kind}[head.group(2)]
            waiting = (indent, inner)
        if re.search(r"(^|\s)where$", line):
            blocks.append(waiting or (indent, "local"))
            waiting = None


def imported(path, own):
    """The names from outside the repository that a file brings into scope."""
    for place, names in re.findall(r"\buse ([^\s;{]+)\.\{([^}]*)\}", path.read_text()):
        parts = place.split(".")
        if parts[0] != "Rattle" or parts[1] not in own:
            for name in names.split(","):
                yield name.split(" as ")[-1].strip()


# ---- the new spelling


def snake(word):
    word = re.sub(r"^getD\b", "get_or", word)
    return re.sub(r"(?<=[a-z0-9])([A-Z])", lambda m: "_" + m.group(1).lower(), word)


def respelled(name, functions):
    """The name with a dash where a function's name ends before it and another begins after it."""
    parts = [snake(part) for part in name.split("-")]
    new = parts[0]
    for before, after in zip(parts, parts[1:]):
        before, after = before.split("_"), after.split("_")
        ends = any("_".join(before[i:]) in functions for i in range(len(before)))
        begins = any("_".join(after[: i + 1]) in functions for i in range(len(after)))
        new += ("-" if ends and begins else "_") + "_".join(after)
    return new


def is_old(name):
    return name[0].islower() and re.search(r"[A-Z-]", name) is not None


class Names:
    """The names of the repository, and the new spelling of those that change."""

    def __init__(self):
        own = {p.name for p in Path("crates").iterdir()}
        self.kinds = collections.defaultdict(set)
        self.places = collections.defaultdict(set)
        self.goals = set()
        for path in antt_files():
            if names_goals(path):
                self.goals |= {name for name, _ in declared(path)}
                continue
            found = list(declared(path))
            found += [(alias, "alias") for alias in re.findall(r"^use [^\s;{]+ as (\S+)$", path.read_text(), re.M)]
            for name, kind in found:
                self.kinds[name].add((path.parts[2], kind))
                self.places[name].add(str(path))
        self.outside = set()
        for path in antt_files() + rt_files():
            self.outside |= set(imported(path, own))
        self.rust_fields = set()
        for path in rt_files():
            self.rust_fields |= set(re.findall(r"^ *pub ([a-z_0-9]+):", path.read_text(), re.M))
        self.functions = STD_WORDS | {snake(n) for n in self.kinds if ("specs", "top") in self.kinds[n]}
        self.new = self.new_names()

    def has_kind(self, name, *kinds):
        return any(kind in kinds for _, kind in self.kinds[name])

    def defines(self, name):
        return any(part == "specs" for part, _ in self.kinds[name])

    def new_names(self):
        new = {}
        for name in sorted(self.kinds):
            # a name that other files have from elsewhere stays, for a token says nothing of where it is from
            if not is_old(name) or name in self.rust_fields or name in self.outside:
                continue
            if name in BY_HAND:
                new[name] = BY_HAND[name]
            elif self.has_kind(name, "field", "constructor", "alias"):
                new[name] = respelled(name, ())
            else:
                new[name] = respelled(name, self.functions)
        new = {old: name for old, name in new.items() if old != name}
        together = collections.defaultdict(set)
        for name in self.kinds:
            together[new.get(name, name)].add(name)
        for old in new:
            others = together[new[old]] - {old}
            if old not in BY_HAND and not self.defines(old) and others and all(map(self.defines, others)):
                new[old] += "_lem"
        return new

    def wrong(self):
        """What keeps the new names from standing: each is one line."""
        together = collections.defaultdict(set)
        for name in self.kinds:
            together[self.new.get(name, name)].add(name)
        for name, olds in sorted(together.items()):
            if len(olds) > 1:
                yield f"{name} would be the new name of {' and '.join(sorted(olds))}"
        for old, name in self.new.items():
            if name in self.outside:
                yield f"{old}: {name} is a name from elsewhere"
            if name in RESERVED:
                yield f"{old}: {name} is a reserved word"
            if name in self.new:
                yield f"{old}: {name} is itself renamed"
            if old in self.goals:
                yield f"{old} names a goal too"
        for path in antt_files() + rt_files():
            for part in parts_of(path):
                used = set(names_in(part))
                for old in sorted(used & set(self.new)):
                    if self.new[old] in used:
                        yield f"{path}: {self.new[old]} stands there beside {old}"


# ---- texts


def names_in(text):
    """The tokens of a text outside comments, but for those that follow a dot."""
    for line in text.split("\n"):
        code = re.split(r"(?:^|\s)(?:--|//)", line)[0]
        for match in TOKEN.finditer(code):
            if match.start() == 0 or code[match.start() - 1] != ".":
                yield match.group().rstrip(":")


def parts_of(path):
    """A file's texts in which names are read together: of Rattle code the `use` lines, and each function."""
    text = path.read_text()
    if path.suffix == ".antt":
        return [text]
    # a function's name, declared or called, hides no word of a clause
    text = re.sub(r"\bfn \w+", "fn", re.sub(r"\b[a-z_]\w*(::\w+)*\(", "(", text))
    parts, part = [], []
    for line in text.split("\n"):
        if re.match(r"\s*(pub )?(const )?fn ", line) or re.match(r"\S*(struct|enum|impl|use)\b", line):
            parts.append("\n".join(part))
            part = []
        part.append(line)
    return parts + ["\n".join(part)]


def turn(text, new=None):
    """The text with the new names: whole tokens, and in a comment those in backquotes or in camel case."""
    new = read_map() if new is None else new

    def in_code(match):
        token = match.group()
        if match.start() > 0 and match.string[match.start() - 1] == "." and OF_A_CALL.match(match.string, match.end()):
            return token
        return new.get(token, token)

    def in_prose(match):
        word, rest = re.fullmatch(r"(.*?)('s|[:?!]*)", match.group(), re.S).groups()
        return new.get(word, word) + rest if re.search("[A-Z]", word) else match.group()

    lines = []
    for line in text.split("\n"):
        start = re.search(r"(?:^|(?<=\s))(?:--|//)", line)
        at = start.start() if start else len(line)
        prose = line[at:].split("`")
        for i, part in enumerate(prose):
            prose[i] = TOKEN.sub(in_code if i % 2 and i < len(prose) - 1 else in_prose, part)
        lines.append(TOKEN.sub(in_code, line[:at]) + "`".join(prose))
    return "\n".join(lines)


def read_map():
    if not MAP.exists():
        return {}
    return dict(line.split("\t") for line in MAP.read_text().splitlines())


def main():
    if sys.argv[1:] == ["--text"]:
        sys.stdout.write(turn(sys.stdin.read()))
        return
    names = Names()
    wrong = list(names.wrong())
    if wrong:
        sys.exit("\n".join(wrong))
    if not names.new:
        print("every name is spelled as it should be")
        return
    MAP.write_text("".join(f"{old}\t{new}\n" for old, new in sorted({**read_map(), **names.new}.items())))
    changed = 0
    for path in antt_files() + rt_files():
        text = path.read_text()
        after = turn(text, names.new)
        if after != text:
            path.write_text(after)
            changed += 1
    print(f"{len(names.new)} names in {changed} files")


if __name__ == "__main__":
    main()
