#!/usr/bin/env python3
"""The public statements, read from the sources: that each admits a single outcome by its form, and which files of definitions they reach.

statements.py [--list] [--self-test]

1. A contract of a function that is public out of its crate asks nothing of its caller, and is an equation for the answer and one for every slice that is lent to be
   written, each with a right side in which neither the answer nor anything at exit stands. Of such an equation no two outcomes are possible (`single`, crate statements).
   For the answer it may be an equation for what tells it (TELLS below), of which a law says that no two answers are told alike.
2. A public statement is such a contract or a theorem of a page (PAGES below). What it names, and what the definitions of those names name in turn, must be believed.
   A file of specs/ with such a name stands in specs/ itself, one with none in specs/inner/.
3. Every must-fail edit is named in docs/STATEMENTS.md, beside what it speaks for.

Prints what fails, with --list every file with its kind, with --self-test what the first check says of contracts that are known to be right or wrong; last
'N passed, M failed'.
"""
import pathlib
import re
import sys

CRATES = pathlib.Path("crates")
PAGES = ["*/proofs/Promises.antt", "statements/proofs/*.antt", "sums/proofs/*.antt"] + [
    f"demands/proofs/{page}.antt" for page in "Numbers Answers Accepted Slots PastRooms Exports Codeword Wordings Matrix Filling Encoder Release".split()
]
WORD = re.compile(r"[^\s(){}\[\],;.→λ]+")
IMPORT = re.compile(r"^(?:ghost )?use Rattle\.(\w+)\.specs\.([\w.]+?)(?:\.TheVariants)?\.\{([^}]*)\}", re.M)
ALIAS = re.compile(r"^(?:ghost )?use Rattle\.(\w+)\.specs\.([\w.]+?)(?:\.TheVariants)? as (\S+?);?$", re.M)
FUNCTION = re.compile(r"^pub (extern \"C\" )?fn (\w+)(.*?)^\{", re.M | re.S)
# What tells an answer of a type, with the file and the name of the law that no two answers are told alike.
TELLS = {
    "number_in": ("Result<(), Refusal>", "refusals/proofs/Numbers.antt", "number_in_tells"),
    "answer_of": ("Answer", "slots/proofs/Told.antt", "answer_tells"),
    "told": ("Outcome", "slots/proofs/Told.antt", "told_tells"),
}
RIGHT = [
    "(a: usize) -> Result<(), Refusal>\n    ensures { number_in result ≡ f a }\n",
    "(a: usize) -> Outcome\n    ensures { told result ≡ f a }\n",
    "(a: usize) -> usize\n    ensures { result ≡ f a }\n",
    "(a: &[u8]) -> &[u8]\n    ensures { result.now ≡ f a.now }\n",
    "(a: &[u8], out: &mut [u8])\n    ensures { out.new ≡ f a.now\n        out.old }\n",
    "(a: &[u8], out: &mut [u8]) -> usize\n    ensures number { result ≡ f a.now (length out.old) }\n    ensures output { out.new ≡ cond {A = ℕ} (g a.now) out.old }\n",
]
WRONG = [
    ("(a: usize) -> usize\n", "nothing is said of the answer"),
    ("(a: usize) -> usize\n    requires { a ≤ 5 }\n    ensures { result ≡ f a }\n", "it asks something of the caller"),
    ("(a: usize) -> usize\n    requires few { a ≤ 5 }\n    requires more { 2 ≤ a }\n    ensures { result ≡ f a }\n", "it asks something of the caller"),
    ("(a: usize) -> usize\n    ensures { result ≤ f a }\n", "nothing is said of the answer"),
    ("(a: usize) -> usize\n    ensures { f result ≡ g a }\n", "nothing is said of the answer"),
    ("(a: usize) -> Result<usize, Refusal>\n    ensures { number_in result ≡ f a }\n", "nothing is said of the answer"),
    ("(a: usize) -> State\n    ensures { told result ≡ f a }\n", "nothing is said of the answer"),
    ("(a: usize) -> Pair\n    ensures { result.first ≡ f a }\n", "nothing is said of the answer"),
    ("(a: usize) -> Cell\n    ensures { result.now ≡ f a }\n", "nothing is said of the answer"),
    ("(a: usize) -> usize\n    ensures { result ≡ f result }\n", "an equation speaks of the outcome on its right"),
    ("(a: usize) -> Pair\n    ensures { result ≡ f (result.first) }\n", "an equation speaks of the outcome on its right"),
    ("(a: usize, out: &mut [u8]) -> usize\n    ensures { result ≡ f a }\n", "nothing is said of out"),
    ("(a: usize, out: &mut [u8]) -> usize\n    ensures number { result ≡ f a }\n    ensures output { take 3 out.new ≡ g a }\n", "nothing is said of out"),
    ("(out: &mut [u8])\n    ensures { out.new ≡ f out.new }\n", "an equation speaks of the outcome on its right"),
    ("(out: &mut [u8])\n    ensures { out.new ≡ f out }\n", "an equation speaks of the outcome on its right"),
    ("(out: &mut [u8])\n    ensures { out.new ≡ f out.old ∨ g }\n", "an equation is not all that is said"),
    ("(a: usize) -> usize\n    ensures { a ≤ 5 → result ≡ f a }\n", "nothing is said of the answer"),
    ("(a: usize) -> usize\n    ensures { result ≡ f a → g a }\n", "an equation is not all that is said"),
]


def text_of(path):
    """A file without its comments."""
    return re.sub(r"(--|//)[^\n]*", "", path.read_text())


def handed_on(text):
    """The names that a root file hands on from its modules."""
    for listed, name in re.findall(r"^pub use (?:\w+::)*(?:\{([^}]*)\}|(\w+));", text, re.M):
        yield from listed.replace(",", " ").split() if listed else [name]


def public_functions(crate):
    """Of each function that is public out of a crate, an export among them: its file, the file's text, its name, and what stands before its body."""
    src = crate / "src"
    root = src / ("lib.rt" if (src / "lib.rt").exists() else "main.rt")
    text = text_of(root)
    whole = {root} | {src / (m + ".rt") for m in re.findall(r"^pub mod (\w+);", text, re.M)}
    public = set(handed_on(text))
    for path in sorted(src.glob("*.rt")):
        code = text_of(path)
        for m in FUNCTION.finditer(code):
            if m.group(1) or path in whole or m.group(2) in public:
                yield path, code, m.group(2), m.group(3)


# ---- single outcomes by the form of the contracts


def clauses(head, kind):
    """What stands between the braces of each clause of a kind."""
    for start in re.finditer(rf"^\s*{kind}\b[^{{\n]*\{{", head, re.M):
        depth, at = 1, start.end()
        while depth and at < len(head):
            depth += {"{": 1, "}": -1}.get(head[at], 0)
            at += 1
        yield head[start.end():at - 1].strip()


def told_by(left, signature):
    """What an equation with this left side speaks of: the answer itself where it is one for what tells an answer of its type."""
    tells, _, rest = left.partition(" ")
    if rest == "result" and tells in TELLS and signature.rstrip().endswith(f"-> {TELLS[tells][0]}"):
        return rest
    return left


def faults(head):
    """What is wrong with the contract of a function, from its arguments on."""
    signature = re.split(r"^\s*(?:requires|ensures)\b", head, flags=re.M)[0]
    lent = re.findall(r"(\w+)\s*:\s*&mut\b", signature)
    found = []
    if re.search(r"^\s*requires\b", head, re.M):
        found.append("it asks something of the caller")
    told = set()
    for claim in clauses(head, "ensures"):
        left, _, right = (part.strip() for part in claim.partition("≡"))
        whole = any(re.search(rf"(?<![\w.]){name}(?!\w|\.old\b)", right) for name in lent)
        if any(mark in right for mark in "≡∨⊎×→"):
            found.append("an equation is not all that is said")
        elif re.search(r"\.new\b", right) or whole or "result" in WORD.findall(right):
            found.append("an equation speaks of the outcome on its right")
        else:
            told.add(told_by(left, signature))
    answer = "result.now" if re.search(r"->\s*&(?!mut\b)", signature) else "result"
    if "->" in signature and answer not in told and not found:
        found.append("nothing is said of the answer")
    for name in lent:
        if f"{name}.new" not in told and not found:
            found.append(f"nothing is said of {name}")
    return found


def check_contracts():
    passed = failed = 0
    for tells, (_, file, law) in TELLS.items():
        stands = re.search(rf"^pub {law} : ", (CRATES / file).read_text(), re.M)
        passed, failed = (passed + 1, failed) if stands else (passed, failed + 1)
        if not stands:
            print(f"{file}: {law}: no law says that {tells} tells answers apart")
    for crate in sorted(CRATES.iterdir()):
        for path, _, name, head in public_functions(crate):
            wrong = faults(head)
            passed, failed = (passed, failed + 1) if wrong else (passed + 1, failed)
            if wrong:
                print(f"{path}: {name}: {', '.join(wrong)}")
    return passed, failed


def self_test():
    """Contracts that are known to be wrong are found out, each for its own fault; of those that are right nothing is said."""
    missed = [(head, fault) for head, fault in WRONG if fault not in faults(head)]
    for head, fault in missed:
        print(f"not found: {fault}: {head!r}")
    blamed = [head for head in RIGHT if faults(head)]
    for head in blamed:
        print(f"found where nothing is wrong: {', '.join(faults(head))}: {head!r}")
    bad = len(missed) + len(blamed)
    return len(WRONG) + len(RIGHT) - bad, bad


# ---- what must be believed


def file_of(crate, module):
    return CRATES / crate / "specs" / (module.replace(".", "/") + ".antt")


def imported(text):
    """For each name that a file takes from a file of definitions, by itself or with its module's name before it: that file, and its name there."""
    names = {}
    for crate, module, listed in IMPORT.findall(text):
        for item in listed.split(","):
            name, _, here = item.strip().partition(" as ")
            names[here or name] = file_of(crate, module), name
    for crate, module, alias in ALIAS.findall(text):
        for name in re.findall(rf"(?<![^\s(){{}}\[\],;→]){re.escape(alias)}\.([^\s(){{}}\[\],;.→λ]+)", text):
            names.setdefault(f"{alias}.{name}", (file_of(crate, module), name))
    return names


def named_in(path, text, names, own):
    """The definitions that a text names, each as its file and its name."""
    words = set(WORD.findall(text)) | {name for name in names if "." in name and name in text}
    return {(path, w) for w in words if w in own} | {names[w] for w in words if w in names and w not in own}


def declarations(path):
    """The top-level names of a file of definitions, each with the text of its declaration; fields and cases count as their type."""
    parts, name = {}, None
    for line in text_of(path).split("\n"):
        if line and not line[0].isspace() and not re.match(r"(use|infix\w*|unfolding|module)\b", line):
            name = re.match(r"(?:unfoldable |abbrev |pub |record |data )*(\S+)", line).group(1)
        if name:
            parts[name] = parts.get(name, "") + line + "\n"
            case = re.match(r"  (?:pub )?(\S+) :", line)
            if case:
                parts.setdefault(case.group(1), name)
    return parts


def public_theorems(path):
    """A page's text, and the statements of its public theorems with the premises of its modules."""
    text = text_of(path)
    statements = re.findall(r"^\s*pub \S+ :.*?(?=^\s*unfolding|^\s*\S+[^\n:]* =)", text, re.M | re.S)
    premises = re.findall(r"^\s*module _ .*? where", text, re.M | re.S) + re.findall(r"^\s*abbrev [^\n]*\n[^\n]*", text, re.M)
    return text, "\n".join(statements + premises) if statements else ""


def believed(files):
    """The files of definitions that the public statements reach."""
    parts = {path: declarations(path) for path in files}
    names = {path: imported(path.read_text()) for path in files}
    todo = set()
    for crate in sorted(CRATES.iterdir()):
        for path, code, _, head in public_functions(crate):
            todo |= named_in(path, head, imported(code), {})
    for page in PAGES:
        for path in sorted(CRATES.glob(page)):
            text, statements = public_theorems(path)
            todo |= named_in(path, statements, imported(text), {})
    seen = set()
    while todo:
        path, name = todo.pop()
        if (path, name) not in seen and name in parts.get(path, {}):
            seen.add((path, name))
            todo |= named_in(path, parts[path][name], names[path], parts[path])
    return {path for path, _ in seen}


def check_places():
    files = [p for p in sorted(CRATES.glob("*/specs/**/*.antt")) if p.name not in ("Lib.antt", "inner.antt")]
    reached = believed(files)
    failed = 0
    for path in files:
        kind = "believed" if path in reached else "inner"
        wrong = (kind == "inner") != ("inner" in path.parts)
        failed += wrong
        if wrong or "--list" in sys.argv:
            print(f"{'in the wrong place: ' if wrong else ''}{kind} {path}")
    return len(files) - failed, failed


def check_edits():
    statements = pathlib.Path("docs/STATEMENTS.md").read_text()
    edits = sorted(CRATES.glob("*/must-fail/*.edit"))
    unnamed = [edit for edit in edits if f"`{edit.stem}`" not in statements]
    for edit in unnamed:
        print(f"{edit}: docs/STATEMENTS.md does not say what it speaks for")
    return len(edits) - len(unnamed), len(unnamed)


def main():
    results = [self_test()] if "--self-test" in sys.argv else [check_contracts(), check_places(), check_edits()]
    passed, failed = (sum(column) for column in zip(*results))
    print(f"{passed} passed, {failed} failed")
    return failed > 0


sys.exit(main())
