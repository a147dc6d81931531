#!/usr/bin/env python3
"""Respells the repository's own names to snake case, in every crate, after the kit's mechanical port. Run once, at the top; --dry changes nothing.

1. Words of specs/ and of proofs/*.antt (and aliases, as in `x as fooBar`) that are in camel case become snake case, in .antt and .rt files and in must-fail
   edits. Strings, functions of src/, inputs and outputs are left. Two names that would fall together stop the script, unless SETTLED says what to write.
2. Fields of records of specs/ that have a dash become identifiers: `on-time` is `on_time`.
3. In proofs/FUNCTION/Answers.antt and Invariants.antt the names that Rattle makes hold the source's names as they are written there: `c.way-count` is
   `c.way_count`. Lemmas keep their dashes, which join two names.
"""
import glob
import re
import sys

DRY = "--dry" in sys.argv

# Names whose plain respelling is taken, with what they become: (only in this file, or None for every file; the old name; the new one).
SETTLED = [
    ("crates/dispatch/proofs/Firsts.antt", "first_below", "first_below-lt"),  # a lemma, beside the definition firstBelow
    (None, "firstBelow", "first_below"),
    ("crates/tabletext/proofs/Answer.antt", "isOk", "ok_count"),  # is_ok is a word of std
    (None, "noWays", "no_ways"),  # a test's local has the name, in a crate that does not cite the definition
]

TOKEN = re.compile(r"(?<![\w'-])([A-Za-z][\w'-]*)")
DECLARED = re.compile(
    r"^\s*(?:(?:unfoldable|abbrev|pub|data|record|opaque|private)\s+)*([a-z][\w'-]*)\s*(?:\([^()]*\)\s*|\{[^{}]*\}\s*)*:\s", re.M
)
STRING = re.compile(r'b?"(?:[^"\\]|\\.)*"')


def found(pattern):
    return [f for f in sorted(glob.glob("crates/" + pattern, recursive=True)) if "/out/" not in f]


def snake(name):
    return re.sub(r"(?<=[a-z0-9])[A-Z]", lambda m: "_" + m.group(0).lower(), name)


antt = found("*/specs/**/*.antt") + found("*/proofs/**/*.antt")
rust = found("*/src/**/*.rt")
edits = found("*/must-fail/*.edit")
text = {f: open(f, encoding="utf-8").read() for f in antt + rust + edits}
code = {f: re.sub(r"--.*|//.*", "", text[f]) for f in antt + rust}


def is_answers(f):
    return f.endswith(("/Answers.antt", "/Invariants.antt")) and f.count("/") > 3


# --- what is respelled
declared = {n for f in antt if "/specs/" in f or f.count("/") == 3 for n in DECLARED.findall(code[f])}
aliases = set(re.findall(r"\bas ([a-z][a-z0-9]*(?:[A-Z][a-z0-9]*)+)\b", "\n".join(code.values())))
fields = {n for f in antt if "/specs/" in f for n in re.findall(r"^  pub ([a-z]\w*(?:-\w+)+) :", code[f], re.M)}

# A new name may be none that stands bare in an .antt file or is brought in by a `ghost use`, and no Rust parameter, field or local, which would hide it.
bare = {m.group(1) for f in antt for m in TOKEN.finditer(code[f]) if code[f][m.start() - 1 : m.start()] != "."}
brought = {n for f in rust for names in re.findall(r"ghost use [\w.]+\.\{([^}]*)\}", code[f]) for n in re.findall(r"[\w']+", names)}
locals_ = {n for f in rust for t in re.findall(r"\b(\w+)\s*:(?!:)|\blet\s+(?:mut\s+)?(\w+)|\bfor\s+(\w+)\s+in\b", code[f]) for n in t if n}

settled = {old for _, old, _ in SETTLED}
plan = {}
taken = []
for name in sorted(n for n in declared | aliases if re.match(r"[a-z]+[a-z0-9]*[A-Z]", n) and "-" not in n and n not in settled):
    new = snake(name)
    why = [
        said
        for said, names in (
            ("used in .antt files", bare),
            ("brought in by a ghost use", brought),
            ("a Rust parameter, field or local", locals_),
            ("another word's new name", set(plan.values())),
        )
        if new in names
    ]
    if why:
        taken.append(f"{name} -> {new} is {', '.join(why)}")
    plan[name] = new
for name in sorted(fields):
    new = name.replace("-", "_")
    if new in bare:
        taken.append(f"field {name} -> {new} is used in .antt files")
if taken:
    sys.exit("\n".join(["settle by hand:"] + taken))


def settle(f, t):
    for only, old, new in SETTLED:
        if only in (None, f):
            t = TOKEN.sub(lambda m: new if m.group(1) == old else m.group(1), t)
    return t


def turned(f, t):
    return TOKEN.sub(lambda m: plan.get(m.group(1), m.group(1)), settle(f, t))


def outside_strings(f, t):
    out, at = [], 0
    for m in STRING.finditer(t):
        out += [turned(f, t[at : m.start()]), m.group(0)]
        at = m.end()
    return "".join(out) + turned(f, t[at:])


FIELD = re.compile(
    r"(?:(?<=\.)|(?<=  pub )|(?<=\{ )|(?<=; )|(?<=^    ))(" + "|".join(sorted(map(re.escape, fields))) + r")(?![\w'-])(?=\s+[:=]|[^=\w])", re.M
)


def field_names(t):
    return FIELD.sub(lambda m: m.group(1).replace("-", "_"), t)


# --- the names that Rattle makes, in answers and invariants
# Words that Rattle and std put into the names of steps and goals.
MADE = """overflow_add overflow_sub overflow_mul overflow_cast overflow_shl overflow_shr overflow_step overflow_neg nonzero_div nonzero_rem slice_bounds
offset_bounds invariant_of in_ok in_err in_default type_inv yielded_by is_some is_none is_ok is_err is_empty unwrap_or saturating_add saturating_sub
saturating_mul checked_add checked_sub checked_mul split_at as_bytes as_str push_str write_str into_parts ok_or from_residual""".split()
source = set(MADE) | {n for f in rust for n in re.findall(r"\b[a-z][a-z0-9]*(?:_[a-z0-9]+)+\b", code[f])}
pieces = [(re.compile(r"(?<![A-Za-z0-9_'])" + re.escape(n.replace("_", "-")) + r"(?![A-Za-z0-9_'])"), n) for n in sorted(source, key=len, reverse=True)]

# A word after a dot; a goal's name at a line's head; a field of a record that answers `returns`; an arm of an `elim`.
MADE_WORD = re.compile(
    r"(?<=\.)[A-Za-z][\w'-]*|^(?:abbrev |pub )*[a-z][\w'-]*"
    r"|(?:(?<=record \{ )|(?<=; )|(?<=^  )|(?<=^    )|(?<=^      ))[a-z][\w'-]*(?= = )|(?<=[|\[] )[a-z][\w'-]*(?= \w+ ↦)"
)


def made(word):
    for pattern, name in pieces:
        word = pattern.sub(name, word)
    return word


def answers(t):
    lines = []
    for line in t.split("\n"):
        if line.startswith("use ") and re.search(r"\b(Goals|Lts)\b", line):
            line = re.sub(r"\{.*\}", lambda m: TOKEN.sub(lambda t: made(t.group(1)), m.group(0)), line)
        elif not line.lstrip().startswith(("use ", "--")):
            line = MADE_WORD.sub(lambda m: m.group(0) if line[: m.start()].endswith("lemmas.") else made(m.group(0)), line)
        lines.append(line)
    return "\n".join(lines)


count = 0
for f in text:
    new = turned(f, text[f]) if f.endswith(".antt") else outside_strings(f, text[f])
    if f.endswith(".antt"):
        new = field_names(new)
    if is_answers(f):
        new = answers(new)
    if new != text[f]:
        count += 1
        if not DRY:
            open(f, "w", encoding="utf-8").write(new)
print(f"{len(plan)} words, {len(SETTLED)} settled ones and {len(fields)} fields respelled; {count} files changed")
