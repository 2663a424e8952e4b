#!/usr/bin/env python3
# respell: brings the repository's own definitions, lemmas and modules to the spelling of today's Rattle (words and lemmas in snake
# case, modules in camel case). Run once at the top, after the toolchain's port.py. The names stand in respell.txt beside this file,
# an old and a new one in a line. It also brings the must-fail edits as far as spelling goes: port.py leaves them as they are.
# A name is a longest run without blanks, brackets, commas, dots and quotes, so that no part of a longer name is touched.
import pathlib
import re
import subprocess

ROOT = pathlib.Path(__file__).resolve().parent.parent
NAME = re.compile(r"[^\s(){}\[\],;.\"`@⌜⌝⟨⟩]+")
FOLDERS = "answers code distance guard light numbers rows seats walk".split()  # of crates/laws/specs
TABLE = dict(line.split() for line in (ROOT / "tools/respell.txt").read_text(encoding="utf-8").splitlines())

# What port.py writes in sources, for the one-line texts of edits, which it leaves: its own names in snake case, and the language's.
PORTED = """above-same aboveOf abs-neg add-at add-left add-r add-start add-turn add-words all-blocks all-digits all-none all-of all-slots
allBelow answerOf as-fields askedOf at-leaf at-most-two at-of below-half bit-high blank-none block-same block-spec block-start blockOf
both-halves by-first by-sign by-size bytesOf caseOf cell-at code-is codeOf copy-spec count-none covered-more covers-at covers-of
digits-lt each-all each-append each-at end-take entries-at entry-at entry-of entry-spec entry-zero entryAt entryOf few-bytes field-at
field-back fields-back fields-read fields-value fieldsOf fill-spec filled-more filled-none first-small flag-same found-none found-right
give-spec gives-none group-at group-of guardOf has-room head-at high-lt in-order in-place in-table index-at is-found is-front isEmpty
isRefused kept-more lane-row left-step lent-other madeOf make-spec many-is mapped-spec mask-fits mem-index most-bytes moved-none
mul-words near-fits nearest-zero negated-fits new-spec next-fits next-last next-more no-bytes no-lt no-nan no-size node-at none-filled
none-of none-spec none-yet not-finite nothing-written number-behind number-put number-short numberAt numberOf of-one of-spec one-answer
one-at one-more one-piece one-shifted one-spec open-is or-left or-right orElse other-sign own-turn part-at pass-spec passed-none
past-word pattern-lt placed-at put-back put-byte put-other put-same put-spec put-then read-back read-first read-right read-spec
read-taken readingOf rest-end row-back rowAt rowOf rows-more rows-right run-spec saidOf same-bit same-bool same-length shl-one
signed-back size-is size-small sizeAt sizeOf slot-apart slot-small slotsOf small-one some-of some-size square-le stateOf stepOf
store-spec stored-here stored-next stored-other sub-read sum-first sum-fits take-spec takenOf target-small the-nan to-is too-large
total-right turn-spec turned-none unsigned-small valuesOf walk-from walkOf whole-part wholeOf widen-spec widened-none within-none
word-lt wordAt wordOf words-right write-spec written-from written-none written-step writtenOf wrote-none zero-test code-at code-one
enum-told inRange""".split()
LANGUAGE = {
    "_≡_": "◌≡◌", "_+_": "◌+◌", "_*_": "◌*◌", "_-_": "◌-◌", "_^_": "◌^◌", "_≤_": "◌≤◌", "_<_": "◌<◌", "_%_": "◌%◌", "_/_": "◌/◌",
    "_∙_": "◌∙◌", "_∷_": "◌∷◌", "_++_": "◌++◌", "_≢_": "◌≢◌", "_&&_": "◌&&◌", "_||_": "◌||◌", "getD": "get_or", "bitAnd": "bit_and",
    "bitXor": "bit_xor", "bitOr": "bit_or", "natAbs": "nat_abs", "ltZ": "lt_ℤ", "_+ℤ_": "◌+ℤ◌", "_-ℤ_": "◌-ℤ◌", "List·Memᴰ": "Memᴰ",
}  # fmt: skip


def snake(name):
    return re.sub(r"([a-z0-9])([A-Z])", r"\1_\2", name).lower().replace("-", "_")


def respelled(text):
    return NAME.sub(lambda m: TABLE.get(m[0], m[0]), text)


def foldered(text):
    """The folders of laws, in module paths and in file paths."""
    for folder in FOLDERS:
        text = text.replace(f"Rattle.laws.specs.{folder}.", f"Rattle.laws.specs.{folder.capitalize()}.")
        text = re.sub(rf"(laws/specs/){folder}(?=[/.])", rf"\g<1>{folder.capitalize()}", text)
    return text


def antt(text, lib):
    lines = []
    for line in foldered(text).split("\n"):
        code, dashes, comment = line.partition("--") if line.lstrip().startswith("--") else (line, "", "")
        lines.append(respelled(code) + dashes + re.sub(r"`[^`]+`", lambda m: respelled(m[0]), comment))
    text = "\n".join(lines)
    return re.sub(rf"^(pub mod|mod) ({'|'.join(FOLDERS)})$", lambda m: f"{m[1]} {m[2].capitalize()}", text, flags=re.M) if lib else text


def source(text):
    """The clauses and imports of a .rt file; its code, its strings and its comments' own words keep their names."""
    lines, clause = [], False
    for line in foldered(text).split("\n"):
        word = line.strip().split(" ")[0]
        clause = word in ("requires", "ensures", "ghost") or clause and word != "{" and not line.strip().startswith(("//", "fn ", "pub "))
        if clause or line.startswith("ghost use"):
            line = respelled(line)
        else:
            line = re.sub(r"(?<=`)[^`]+(?=`)", lambda m: respelled(m[0]), line) if "//" in line else line
        lines.append(line)
        clause = clause and not line.endswith("}")
    return "\n".join(lines)


def in_edit(text, path):
    """An edit's one line of text. That of code stays."""
    if path.endswith(".rt") and not re.search(r"ghost use|requires|ensures|λ|⌜", text):
        return text
    text = text.replace("·specs.specs.", "·specs.").replace("·proofs.proofs.", "·proofs.").replace("Rattle·", "Rattle.")
    text = re.sub(r"(Rattle\.\w+)·(specs|proofs)\.", r"\1.\2.", text)
    text = re.sub(r"\bnow \((\w+) \.entry\)", r"\1.now", text)
    text = re.sub(r"\bnow \((\w+) \.exit\)", r"\1.new", text)
    text = re.sub(r"\bnow (\w+)", r"\1.now", text)
    text = re.sub(r"\{ λ r\. ⌜ (.*) ⌝ \}", lambda m: "{ " + re.sub(r"(?<![\w.])r(?![\w])", "result", m[1]) + " }", text)
    text = text.replace("⌜ ", "").replace(" ⌝", "")
    text = re.sub(r"(?<=[\w')\]]) \.(?=[a-z0-9])", ".", text)
    text = re.sub(r"\((\w+(?:\.\w+)+)\)", r"\1", text)
    text = NAME.sub(lambda m: LANGUAGE.get(m[0], snake(m[0]) if m[0] in PORTED else m[0]), text)
    return respelled(text)


def edit(text):
    lines, path = [], ""
    for line in text.split("\n"):
        if line.startswith("file: "):
            line = foldered("crates/laws/" + line[6:] if "specs/" in line else line[6:])
            path = line.removeprefix("crates/laws/")
            line = "file: " + path
        elif line.startswith(("old: ", "new: ")):
            line = line[:5] + in_edit(line[5:], path)
        lines.append(line)
    return "\n".join(lines)


def page(text):
    """Names between backquotes, and in blocks of quoted statements."""
    text = foldered(text)
    text = re.sub(r"^```text\n.*?^```$", lambda m: in_page(m[0]), text, flags=re.M | re.S)
    return re.sub(r"`[^`\n]+`", lambda m: in_page(m[0]), text)


def in_page(text):
    return respelled(NAME.sub(lambda m: LANGUAGE.get(m[0], snake(m[0]) if m[0] in PORTED else m[0]), text))


def change(path, turn):
    was = path.read_text(encoding="utf-8")
    now = turn(was)
    if now != was:
        path.write_text(now, encoding="utf-8")


def main():
    laws = ROOT / "crates/laws/specs"
    for folder in FOLDERS:
        for name in folder, folder + ".antt":
            if (laws / name).exists():
                subprocess.run(["git", "mv", str(laws / name), str(laws / (name[0].upper() + name[1:]))], check=True)
    for path in sorted(ROOT.glob("crates/**/*.antt")):
        change(path, lambda text: antt(text, path.name == "Lib.antt" and path.parent == laws))
    for path in sorted(ROOT.glob("crates/*/src/**/*.rt")):
        change(path, source)
    for path in sorted(ROOT.glob("crates/*/must-fail/*.edit")):
        change(path, edit)
    for path in sorted(ROOT.glob("**/*.md")):
        change(path, page)
    for crate in sorted(ROOT.glob("crates/*")):
        subprocess.run(["rt", "fmt"], cwd=crate, check=True, stdout=subprocess.DEVNULL)


main()
