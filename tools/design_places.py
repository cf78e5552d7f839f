#!/usr/bin/env python3
"""Lists places in crates/*/src where an older form may stand, point by point, by their text alone; docs/DESIGN-PASS.md says what became of them.

    tools/design_places.py [FOLDER]     counts, and each place as file:line, of the repository in FOLDER (here: the one the script stands in)

A row is a place to look at and no verdict."""
import collections, itertools, os, re, shutil, subprocess, sys, tempfile

TOP = os.path.abspath(sys.argv[1] if len(sys.argv) > 1 else os.path.join(os.path.dirname(__file__), ".."))
FN = re.compile(r"^\s*(pub(\([a-z]+\))? )?fn (\w+)")


class Fn:
    """A function's head: where it stands, what is said above it, its parameters, its clauses, and its body."""

    def __init__(self, crate, file, line, name, comment, text):
        self.crate, self.file, self.line, self.name, self.comment = crate, file, line, name, comment
        head = re.split(r"\n\s*(?:requires|ensures)\b", text)[0]
        head = head[: head.index("{")] if "{" in head.split("->")[-1] and "requires" not in head else head
        self.result = head.split("->")[-1].strip() if "->" in head else ""
        inner = head[head.index("(") + 1 :] if "(" in head else ""
        self.params = [re.sub(r"\s+", " ", p).strip() for p in re.findall(r"\w+: (?:[^,()<\[]|\[[^\]]*\]|<[^>]*>)+", inner)]
        self.requires = [re.sub(r"\s+", " ", c) for c in re.findall(r"^\s*requires (?:\w+ )?\{ (.*) \}$", text, re.M)]
        self.text = text

    def where(self):
        return f"{self.file}:{self.line} {self.name}"


def functions(file, crate):
    lines = open(os.path.join(TOP, file), encoding="utf-8").read().split("\n")
    for i, line in enumerate(lines):
        m = FN.match(line)
        if not m:
            continue
        above = []
        j = i - 1
        while j >= 0 and lines[j].strip().startswith("//"):
            above.insert(0, lines[j].strip())
            j -= 1
        indent = re.match(r"\s*", line).group(0)
        end = i
        while end < len(lines) - 1 and lines[end] not in (indent + "}",) and not (lines[end].rstrip().endswith(";") and end == i):
            end += 1
        yield Fn(crate, file, i + 1, m.group(3), " ".join(above), "\n".join(lines[i : end + 1]))


def sources():
    for crate in sorted(os.listdir(os.path.join(TOP, "crates"))):
        for folder, _, files in sorted(os.walk(os.path.join(TOP, "crates", crate, "src"))):
            for name in sorted(files):
                if name.endswith(".rt"):
                    yield crate, os.path.relpath(os.path.join(folder, name), TOP)


def grep(pattern):
    hits = []
    for _, file in SOURCES:
        for n, line in enumerate(open(os.path.join(TOP, file), encoding="utf-8"), 1):
            if re.search(pattern, line):
                hits.append(f"{file}:{n} {line.strip()[:90]}")
    return hits


def show(point, what, places):
    print(f"{point}  {what}: {len(places)}")
    for place in places:
        print(f"      {place}")


SOURCES = list(sources())
FNS = [f for crate, file in SOURCES for f in functions(file, crate)]

# 1: results that a flag or a number tells
show("1a", "bool beside what a &mut receives", [f.where() for f in FNS if f.result.startswith("bool") and any("&mut [" in p for p in f.params)])
show("1b", "a number that stands for none", [f.where() for f in FNS if re.search(r", or (n\b|the number of places|0 where|99)", f.comment) and re.match(r"usize|u8|Result<usize", f.result)])
show("1c", "a field told by a number", grep(r"\bfield: usize"))
show("1d", "enums", grep(r"^\s*(pub(\([a-z]+\))? )?enum "))
# 2: what is written twice (pairs of places, by the tool of that name where it is there)
with tempfile.TemporaryDirectory() as copy:  # the tool reads names that end in .rs
    for _, file in SOURCES:
        os.makedirs(os.path.join(copy, os.path.dirname(file)), exist_ok=True)
        shutil.copy(os.path.join(TOP, file), os.path.join(copy, file[:-3] + ".rs"))
    try:
        said = subprocess.run(["duplicates", "--repo", copy, "--min-lines", "6", "--most", "200", "--seconds", "60"], capture_output=True, text=True).stdout
        show("2 ", "pairs of places that share six lines", [re.sub(r"\.rs:", ".rt:", l) for l in said.split("\n") if re.match(r"D\d+ ", l)])
    except FileNotFoundError:
        print("2   (the command `duplicates` is not here)")
# 3: loops over an index
show("3 ", "loops that count", grep(r"\bfor \w+ in [^{]*\.\.") + grep(r"^\s*(while|loop)\b"))
# 4: conversions, names and comparisons by hand
BY_HAND = r"-> &'static str|^\s*\w+ as u8$|let \w+ = if \w+ == 0 \{|^fn mark_of|pub struct (Told|Listed)|^impl .*\b(PartialEq|PartialOrd|Eq|Ord|Clone|Copy)\b.* for |^fn print_"
show("4 ", "words, names, numbers, cases and printing by hand", grep(BY_HAND))
# 5: facts and parameters that come again and again
again = collections.defaultdict(list)
for f in FNS:
    for c in set(f.requires):
        again[(f.crate, re.sub(r"\.(old|now)", "", c))].append(f.where())
show("5a", "facts in the contracts of three or more functions", [f"{crate}: {fact} ({len(w)})" for (crate, fact), w in sorted(again.items()) if len(w) >= 3])
together, alone = collections.Counter(), collections.Counter()
for f in FNS:
    alone.update((f.crate, p) for p in set(f.params))
    together.update((f.crate, pair) for pair in itertools.combinations(sorted(set(f.params)), 2))
always = {(c, (a, b)): n for (c, (a, b)), n in together.items() if n >= 4 and n >= min(alone[c, a], alone[c, b])}
show("5b", "pairs of parameters of four or more functions, one of them never without the other", [f"{c}: {a}; {b} ({n})" for (c, (a, b)), n in sorted(always.items())])
# 6: buffers with a length beside
show("6 ", "a slice and a number of its elements", [f.where() for f in FNS if any("[" in p for p in f.params) and any(re.match(r"(len|count|block|cells|n): usize", p) for p in f.params)])
# 7: which step to run
show("7 ", "matches on a case that says which step to run", grep(r"match (layout|self\.(plan\.)?layout|self\.side\(|code\.field\(|self\.field)") + [h for h in grep(r"match self \{") if "/layout.rt" in h])
