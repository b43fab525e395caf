#!/usr/bin/env python3
"""What `rt ci` does not look at: public contracts, the names in the documents, why each must-fail edit was refused, and the cases.

Run after .ci/run's `rt ci`, of which it reads target/ci.log and what the programs wrote, and after tests/trials.py, whose logs it reads: `rt ci` itself
keeps no log of a crate's check, and of an edit's refusal the first line alone. Its last line is 'N passed, M failed'. Each check is first tried on
something that it must find.
"""
import re
import subprocess
import sys
from pathlib import Path

from checks import check, differs, end
from definitions import blocks, digests, recorded, unlike
from named import PLACE, changed, named
from refusals import SAYING, unfit
from trials import Digests, must_fail, said_of

ROOT = Path(__file__).resolve().parent.parent
GATE = ROOT / "target" / "ci.log"
# A public function: its attributes, `pub` or `pub(..)`, words such as `extern "C"`, its name, and all up to its body.
PUBLIC = re.compile(r'^ *(?:#\[[^\n]*?\] *)*pub(?:\([^)\n]*\))? (?:[\w"]+ )*?fn (\w+)(.*?)(?:\n\s*\{$| \{$| \{\}$)', re.M | re.S)
# Records of equations that give the result and every byte of each lent buffer. Each has a law that no second answer satisfies it.
RECORDS = ["Put", "Turned", "Ran", "Replayed", "Written", "PoweredOn", "EventDone", "FedBy", "OpenDone", "FeedDone"]
# What makes a statement hold of more than one answer.
LOOSENS = re.compile("[→⊎∨]")


# ---- public contracts


def exact(rest):
    """Whether a function's contracts leave one answer: a record of equations, or an equation for the result and for each lent buffer."""
    signature, *clauses = re.split(r"^\s+(?=requires\b|ensures\b)", rest, flags=re.M)
    said = [m[1] for text in clauses if (m := re.fullmatch(r"ensures(?: \w+)? \{ (.*) \}\s*", text, re.S)) and not LOOSENS.search(text)]
    lent = re.findall(r"(\w+): &(?:'\w+ )?mut\b", signature)
    if lent and any(text.split()[0] in RECORDS and covers(text, lent) for text in said):
        return True
    lent = set(lent)
    result = any(re.match(r"result ≡ (?!.*\bresult\b)", text, re.S) for text in said)
    given = {m[1] for text in said if (m := re.match(r"(\w+)\.new ≡ (?!.*(?:\bresult\b|\.\s*new\b))", text, re.S))}
    return lent <= given and (result or bool(lent) and "->" not in signature)


def covers(text, lent):
    """Whether a record's arguments have each lent buffer at entry and after that at exit, once, and the exits in the order of the parameters,
    each an argument of its own."""
    entries, exits = [re.findall(rf"\b(\w+)\s*\.\s*{when}\b", text) for when in ("old", "new")]
    alone, inner = text, None
    while alone != inner:
        alone, inner = re.sub(r"\([^()]*\)", "()", alone.replace("()", "_")), alone
    places = [(text.find(f"{name}.old"), text.find(f"{name}.new")) for name in lent]
    return (exits == lent == re.findall(r"(?<= )(\w+)\.new(?= |$)", alone) and all(entries.count(name) == 1 for name in lent)
            and all(0 < entry < at for entry, at in places))


def loose(source, where):
    """The public functions of a source that ask something of their caller, or do not say what their result is."""
    found = []
    for name, rest in PUBLIC.findall(source):
        if re.search(r"^\s+requires\b", rest, re.M):
            found.append(f"{where}::{name} has a requires")
        if not re.search(r"^\s+ensures\b", rest, re.M):
            found.append(f"{where}::{name} has no ensures")
        elif not exact(rest):
            found.append(f"{where}::{name} has no ensures that says what the result is")
    return found


# Contracts that the check must accept or refuse: a function's head, what its `ensures` say, whether they leave one answer.
CONTRACTS = [
    ("pub fn f(x: u8) -> u8", ["result ≡ half x"], True),
    ("pub fn f(x: u8) -> u8", ["result ≤ x", "result ≡ half x"], True),
    ("pub fn f(x: u8) -> u8", ["result ≤ x"], False),
    ("pub fn f(x: u8) -> u8", ["result ≡ result"], False),
    ("pub fn f(x: u8) -> u8", ["result ≡ half result"], False),
    ("pub fn f(x: u8) -> u8", ["result ≡ (pair result).first"], False),
    ("pub fn f(x: u8) -> u8", ["result ≡ x → result ≡ x"], False),
    ("pub fn f(x: u8) -> u8", ["(y : ℕ) → result ≡ x"], False),
    ("pub fn f(x: u8) -> u8", ["(result ≡ x) ⊎ (x ≡ 0)"], False),
    ("pub fn f(x: u8) -> u8", ["result ≡ half\n        result"], False),
    ("pub fn f(x: u8) -> u8", ["x ≡ 0 → result ≡ x"], False),
    ("pub fn f(x: u8) -> u8", ["IfOk result (λ n. n ≡ x)"], False),
    ("pub fn f(x: u8) -> u8", ["r ≡ half x"], False),
    ("pub fn f<R: Read>(from: &mut R, x: u8) -> u8", ["result ≡ half x"], False),
    ("pub fn f(\n    x: u8,\n    y: u8,\n) -> u8", ["result ≡ half x"], True),
    ("pub(crate) fn f(x: u8) -> u8", [], False),
    ("pub extern \"C\" fn f(x: u8) -> u8", [], False),
    ("#[unsafe(no_mangle)] pub extern \"C\" fn f(x: u8) -> u8", [], False),
    ("#[unsafe(no_mangle)] pub extern \"C\" fn f(x: u8) -> u8", ["result ≡ half x"], True),
    ("#[unsafe(no_mangle)]\n#[tactic(auto, unfolding(m::specs::M::f))]\npub extern \"C\" fn f(x: u8) -> u8", [], False),
    ("#[unsafe(no_mangle)]\n#[tactic(auto, unfolding(m::specs::M::f))]\npub extern \"C\" fn f(x: u8) -> u8", ["result ≡ half x"], True),
    ("pub fn f(x: u8, out: &mut [u8]) -> u8", ["Put x out.old out.new result"], True),
    ("pub fn f(x: u8, out: &mut [u8]) -> u8", ["Put x out.new out.new result"], False),
    ("pub fn f(x: u8, out: &mut [u8]) -> u8", ["Put x out.new out.old result"], False),
    ("pub fn f(x: u8, out: &mut [u8]) -> u8", ["Put x result out.new"], False),
    ("pub fn f(x: u8, out: &mut [u8]) -> u8", ["Put x out.old (take 1 out.new) result"], False),
    ("pub fn f(x: u8, out: &mut [u8]) -> u8", ["Put x out.old (take (g x) out.new) result"], False),
    ("pub fn f(x: u8, out: &mut [u8]) -> u8", ["Put x out.old out.new.front result"], False),
    ("pub fn f(out: &mut [u8], more: &mut [u8]) -> u8", ["Put out.old out.new result"], False),
    ("pub fn f(out: &mut [u8], more: &mut [u8]) -> u8", ["Replayed (g out.old more.old) result out.new more.new"], True),
    ("pub fn f(out: &mut [u8], more: &mut [u8]) -> u8", ["Replayed (g out.old (h more.old)) result out.new more.new"], True),
    ("pub fn f(out: &mut [u8], more: &mut [u8]) -> u8", ["Replayed (g out.old more.old) result more.new out.new"], False),
    ("pub fn f(x: u8, out: &mut [u8]) -> u8", ["Other x out.old out.new result"], False),
    ("pub fn f(x: u8, out: &mut [u8]) -> u8", ["Put x out.old out.new result → Put x result out.new"], False),
    ("pub fn f(x: u8) -> u8", ["Put x result"], False),
    ("pub fn f(x: u8, out: &mut [u8]) -> u8", ["result ≡ half x"], False),
    ("pub fn f(x: u8, out: &mut [u8]) -> u8", ["out.new ≡ bytes x"], False),
    ("pub fn f(x: u8, out: &mut [u8]) -> u8", ["result ≡ half x", "out.new ≡ bytes x"], True),
    ("pub fn f(x: u8, out: &mut [u8])", ["out.new ≡ bytes x"], True),
    ("pub fn f(x: u8, out: &mut [u8])", ["out.new ≡ out.new"], False),
    ("pub fn f(x: u8, out: &mut [u8])", ["out.old ≡ bytes x"], False),
    ("pub fn f(out: &mut [u8], more: &mut [u8])", ["out.new ≡ bytes"], False),
]


def contracts():
    asks = "pub fn f(x: u8) -> u8\n    requires { a }\n    ensures { result ≡ x }\n{\n    x\n}\n"
    asked = [text for text in (asks, asks.replace("requires", "requires low")) if loose(text, "m") != ["m::f has a requires"]]
    check("a public requires is found, with a name too", asked)
    check("a missing ensures is found", [] if loose("pub fn f() {\n}\n", "m") == ["m::f has no ensures"] else ["it is not"])
    vague = "pub fn f(x: u8) -> u8\n    ensures { result ≤ x }\n{\n    x\n}\n"
    check("an ensures that leaves two answers is found", [] if len(loose(vague, "m")) == 1 else ["it is not"])
    for good, name in (False, "empty and partial contracts are found, behind an attribute too"), (True, "exact contracts are accepted"):
        wrong = []
        for head, said in [(head, said) for head, said, leaves_one in CONTRACTS if leaves_one == good]:
            for named in False, True:    # a clause may have a name, which says nothing
                clauses = [f"    ensures {f'n{place} ' * named}{{ {text} }}\n" for place, text in enumerate(said)]
                source = f"{head}\n{''.join(clauses)}{{\n}}\n"
                if len(PUBLIC.findall(source)) != 1 or len(loose(source, "m")) != (0 if good else 1):
                    wrong.append(f"{head}: {'; '.join(clauses)}")
        check(name, wrong)
    found, seen, there = [], 0, 0
    for path in sorted(ROOT.glob("crates/*/src/**/*.rt")):
        text = path.read_text()
        seen += len(PUBLIC.findall(text))
        there += len(re.findall(r"^(?! *//).*\bpub\b.*\bfn \w", text, re.M))
        found += loose(text, f"{path.parts[-3]}::{path.stem}")
    if seen != there:
        found.append(f"{there} public functions, {seen} read")
    check(f"{seen} public functions ask nothing and say what their result is", found)


# ---- the names in the documents


def declared(module):
    text = "".join(path.read_text() for path in ROOT.glob(f"crates/*/specs/{module}.antt"))
    return set(re.findall(r"^(?:unfoldable |abbrev )?pub (?:record |data )?(\S+)(?: \([^:]*:[^)]*\))* :", text, re.M)) | set(re.findall(r"^pub record (\S+) ", text, re.M))


def functions(crate, module):
    paths = [ROOT / "crates" / crate / "src" / f"{module}.rt"] if module else [ROOT / "crates" / crate / "src" / "lib.rt"]
    return {name for p in paths if p.exists() for name in re.findall(r"^(?:#\[[^\n]*\] )?(?:pub(?:\([^)\n]*\))? )?(?:extern \"C\" )?fn (\w+)", p.read_text(), re.M)}


# An edit, as CRATE/NAME: wherever CRATE is a folder under crates, and so each of several in a cell.
EDIT = re.compile(rf"(?<![\w/.`])({'|'.join(sorted(path.name for path in (ROOT / 'crates').iterdir()))})/(\w+)\b(?![/.`])")


def missing(text):
    """The names in a document that stand for nothing."""
    found = []
    for name in re.findall(r"`([^`\n]+)`", text):
        if m := re.fullmatch(r"[A-Z]\w+\.antt", name):
            if not list(ROOT.glob(f"crates/*/specs/{name}")):
                found.append(f"{name}: no such file")
        elif m := re.fullmatch(r"([A-Z]\w+)\.(\w+)", name):
            if m[2] not in declared(m[1]):
                found.append(f"{name}: no such definition")
        elif m := re.fullmatch(r"(\w+)::(?:(\w+)::)?(\w+)", name):
            if m[3] not in functions(m[1], m[2]):
                found.append(f"{name}: no such function")
        elif re.fullmatch(r"(?:crates|docs|tests|tools)/\S+", name) and not (ROOT / name).exists():
            found.append(f"{name}: no such file")
    for crate, edit in re.findall(r"(?:\| |edit )(\w+)/(\w+)(?= \||:)", text) + EDIT.findall(text):
        if not is_edit(f"{crate}/{edit}") and f"{crate}/{edit}: no such edit" not in found:
            found.append(f"{crate}/{edit}: no such edit")
    return found


def is_edit(name):
    """Whether an edit of the gate or a named one of the mutation run is called so."""
    m = re.fullmatch(r"(\w+)/(\w+)", name)
    return bool(m) and any((place / f"{m[2]}.edit").exists() for place in (ROOT / "crates" / m[1] / "must-fail", PLACE / m[1]))


def documents():
    wrong = "`Step.noSuch` `NoSuch.antt` `chip::noSuch` `crates/none` `docs/none` | rules/no_such | rules/address_128, chip/no_such, text/no_such | none/no_such |"
    check("a name that stands for nothing is found", [] if len(missing(wrong)) == 9 else missing(wrong) or ["it is not"])
    for path in [ROOT / "README.md", *sorted(ROOT.glob("docs/**/*.md"))]:
        check(f"{path.relative_to(ROOT)}: the names in it exist", missing(path.read_text()))


# ---- the tools' table


def commands(rows, tables, names):
    """The commands that the rules' rows and tables and tools/names.txt do not both have."""
    found = []
    for sort, place in ("read", 1), ("write", 2):
        rest = re.search(rf"^{sort}_only =(.*?)\[\]", tables, re.M | re.S)
        have = {int(m[place], 16) for m in re.finditer(r"^row_of \w+ = row (0x\w+) (0x\w+) ", rows, re.M)}
        have |= {int(number, 16) for number in re.findall(r"\((0x\w+), ", rest[1])}
        named = {int(number, 16) for number in re.findall(rf"^register {sort} (0x\w+) ", names, re.M)}
        found += [f"{sort} {number:02x}: {'no name' if number in have else 'no register'}" for number in sorted(have ^ named)]
    return found


def names():
    rows, tables = [(ROOT / "crates" / "rules" / "specs" / name).read_text() for name in ("Rows.antt", "Commands.antt")]
    table = (ROOT / "tools" / "names.txt").read_text()
    check("each register that a command names has its name in the tools' table", commands(rows, tables, table))
    wrong = commands(rows, tables, table.replace("register read 0x00", "register read 0x09"))
    check("a register without a name and a name without a register are found", differs(wrong, ["read 00: no name", "read 09: no register"]))


# ---- what carries each sentence of document 01

# The sections of docs/RULES.md whose rows have four cells.
SECTIONS = [
    "What the model covers", "Events", "Answer codes", "Registers", "Values", "Comparisons", "Status, ALERT, THERM", "Traces and their replay",
    "How strict the promises are",
]
HEAD = ["| Words | Definition | Contract | Refused edits |", "|---|---|---|---|"]


def unfilled(rules):
    """The rows that do not give a definition, a contract and edits, each one or a dash; and the sections that have no such table."""
    found = []
    for name in SECTIONS:
        section = re.search(rf"^## {re.escape(name)}\n(.*?)(?=^## |\Z)", rules, re.M | re.S)
        lines = [line for line in section[1].splitlines() if line.startswith("|")] if section else []
        if lines[:2] != HEAD or len(lines) == 2:
            found.append(f"{name}: no table of four columns")
        for line in lines[2:]:
            cells = [cell.strip() for cell in line.strip("|").split("|")]
            if len(cells) != 4 or not all(cells):
                found.append(f"{name}: {line[:80]}: not four cells")
            elif cells[2] != "-" and "::" not in cells[2]:
                found.append(f"{name}: {cells[2]}: not a dash, nor a function")
            elif cells[3] != "-" and not all(map(is_edit, cells[3].split(", "))):
                found.append(f"{name}: {cells[3]}: not a dash, nor edits")
    return found


def unnamed(edits, rules, alarms):
    """The edits of the rules that stand neither in docs/RULES.md nor in docs/ALARMS.md."""
    return [name for name in edits if not re.search(rf"\brules/{name}\b", rules) and not re.search(rf"\b{name}\b", alarms)]


def sentences():
    table = "\n".join(HEAD)
    row = "| w | `d` | `m::f` | rules/address_128, events/address_128 |"
    good = "".join(f"## {name}\n\n{table}\n{row}\n\n" for name in SECTIONS)
    check("a table of four filled cells is accepted", unfilled(good))
    for name, wrong in [
        ("three cells", "| w | `d` | - |"), ("an empty cell", "| w | `d` |  | - |"), ("no function", "| w | `d` | `d` | - |"), ("no edits", "| w | `d` | - | `d` |"),
        ("an edit that is not there, the second of two", "| w | `d` | - | rules/address_128, none/no_such |"),
    ]:
        check(f"{name} in a sentence's row: found", [] if len(unfilled(good.replace(row, wrong, 1))) == 1 else ["it is not"])
    check("a table of two columns is found", [] if unfilled(good.replace(table, "| w | d |\n|---|---|", 1)) else ["it is not"])
    check("an edit named nowhere is found", [] if unnamed(["a", "b", "c"], "rules/a", "b") == ["c"] else ["it is not"])
    rules, alarms = [(ROOT / "docs" / name).read_text() for name in ("RULES.md", "ALARMS.md")]
    check("every sentence's row in docs/RULES.md has a definition, a contract and edits, or a dash", unfilled(rules))
    edits = sorted(path.stem for path in ROOT.glob("crates/rules/must-fail/*.edit"))
    check(f"{len(edits)} edits of the rules each stand beside a sentence or in docs/ALARMS.md", unnamed(edits, rules, alarms))


# ---- claims and tables that could be emptied

# Types of the specs that are no claims, each by its crate and file: a claim of such a name elsewhere wants its proof.
TYPES = {"rules History.History", "rules Event.Checked", "text_rules Number.Line", "text_rules Record.Parsed", "replay_rules Play.Turn"}


def proves(proof, crate, stem, name):
    """Whether a proof's file has the claim by its type, and the name is the claim's: taken from its own file, and nothing else called so."""
    taken = re.search(rf"^use Rattle\.{crate}\.specs\.{stem}\.{{(?:.*, )?{name}(?:, .*)?}}$", proof, re.M)
    other = re.search(rf" as {name}\b|^\s*(?:pub |abbrev |unfoldable |record |data )+{name}\b", proof, re.M)
    return bool(taken and not other and re.search(rf"^pub [^\s:]+ : {name}$", proof, re.M))


def unproved(crate, specs, proofs):
    """The claims of a crate's specs, texts by the name of their file, that no proof's file has by its type."""
    claims = [(stem, name) for stem, text in specs.items() for name in re.findall(r"^abbrev pub ([A-Z]\w*) : Type 0$", text, re.M)]
    return [f"{stem}.{name}" for stem, name in claims if f"{crate} {stem}.{name}" not in TYPES and not any(proves(proof, crate, stem, name) for proof in proofs)]


def bench(text):
    """The bench cases K1 to K12 that the table does not have, each with rows behind its mark."""
    rows = re.search(r"^bench_rows =\n(.*?)^    \[\]", text, re.M | re.S)
    parts = re.split(r"^ *-- (K\d+)\b.*$", rows[1] if rows else "", flags=re.M)
    have = {name for name, part in zip(parts[1::2], parts[2::2]) if re.search(r"^ *row ", part, re.M)}
    return [f"K{n}" for n in range(1, 13) if f"K{n}" not in have]


def claims():
    good = "use Rattle.c.specs.S.{A, B}\n\npub a : A\n"
    said = {"S": "abbrev pub A : Type 0\nabbrev pub B : Type 0\n"}
    check("a claim without its proof is found", differs(unproved("c", said, [good]), ["S.B"]))
    check("a claim that is called as a type of another file is found", differs(unproved("c", {"Number": "abbrev pub Line : Type 0\n"}, [good]), ["Number.Line"]))
    for what, wrong in ("of another file", good.replace("specs.S.", "specs.T.")), ("renamed", good.replace("{A", "{B as A")), ("defined anew", good + "\nabbrev A : Type 0\nA = B\n"):
        check(f"a proof of a name that is {what} is found", differs(unproved("c", said, [wrong]), ["S.A", "S.B"]))
    found, seen = [], 0
    for crate in sorted((ROOT / "crates").iterdir()):
        specs, proofs = [{path.stem: path.read_text() for path in sorted(crate.glob(f"{sort}/*.antt"))} for sort in ("specs", "proofs")]
        seen += sum(len(re.findall(r"^abbrev pub [A-Z]\w* : Type 0$", text, re.M)) for text in specs.values())
        found += [f"{crate.name}: {name}" for name in unproved(crate.name, specs, proofs.values())]
    check(f"{seen} claims and types of the specs: each claim has its proof, by its type", found)
    good = "-- A.\nuse a.b\n\n-- \"words\"\nabbrev pub f : A\nf = x  -- why\n\npub record R : Type 0 where\n  pub a : B\n"
    wanted = [("use", "use a.b"), ("f", "abbrev pub f : A f = x"), ("R", "pub record R : Type 0 where pub a : B")]
    check("a file's definitions are told apart, comments aside", differs(list(blocks(good)), wanted))
    have, want = digests(), recorded()
    some = next(iter(have))
    check("a definition that is changed, gone or new is found", differs(unlike(have | {some: "0", "x X.y": "1"}, have | {"z Z.z": "2"}), sorted([f"{some}: changed", "x X.y: new", "z Z.z: gone"])))
    check(f"{len(have)} definitions, claims and tables are as tests/definitions.txt has them (tests/definitions.py make renews it)", unlike(have, want) or ([] if len(have) > 800 else ["so few"]))
    table = (ROOT / "crates" / "rules" / "specs" / "BenchCases.antt").read_text()
    check("the table has the bench cases K1 to K12", bench(table))
    check("a bench case without a row is found", differs(bench(re.sub(r"(-- K7\b.*\n)(?: *row .*\n)+", r"\1", table)), ["K7"]))


# ---- must-fail edits

# Which files must refuse an edit of the rules: the tables and what is said in other words, or what is shown of an event and of every sequence; of these the first list
# by the laws of an event or the theorem, the second by what is seen of a chip.
TABLES = ["proofs/Tables.antt", "proofs/PinCases.antt", "proofs/Meant.antt", "proofs/Forms.antt", "proofs/Answered.antt", "proofs/Judged.antt", "proofs/Ended.antt", "proofs/Left.antt", "proofs/Therm.antt"]
THEOREM = ["proofs/Steps.antt", "proofs/Status.antt", "proofs/Alarm.antt", "proofs/Commands.antt"]
SEEN = ["proofs/Steps.antt", "proofs/Kept.antt"]
ALARMS = [
    "read_clears_every_flag", "read_clears_no_flag", "compares_outside_standby", "no_standby_comparison",
    "compares_what_was_never_converted", "read_clears_the_latch", "response_always_clears", "open_diode_waits_for_the_count",
    "standby_raises_the_count", "reset_keeps_a_flag", "reset_keeps_a_verdict", "reset_keeps_the_latch", "reset_keeps_the_run_count", "reset_keeps_the_state",
]

# Those that a claim in other words and a row must refuse besides, each alone: the laws of an event refuse any edit of the step, so without
# this a claim could be loosened and rows taken away.
ENDED = [
    "open_diode_stores_a_value", "open_diode_clears_a_verdict", "open_diode_converts", "open_diode_counts_a_fault_of_before", "open_diode_holds_local_back",
    "open_diode_waits_for_the_count", "open_diode_keeps_the_run", "open_diode_not_flagged",
]
BESIDES = {name: ["Ended", "Tables"] for name in ENDED} | {
    "therm2_masked_by_bit_7": ["Meant", "PinCases"], "therm2_by_the_high_byte": ["Meant", "Ended", "Left", "PinCases"], "therm2_hysteresis_not_scaled": ["Ended", "PinCases"],
    "therm2_mark_follows_bit_5": ["Ended", "PinCases"], "therm2_only_at_conversions": ["PinCases"], "alert_low_as_therm2": ["Meant", "PinCases", "Tables"],
    "therm_released_at_the_limit": ["Meant", "PinCases", "Tables"], "hysteresis_past_zero": ["Meant", "PinCases", "Tables"],
}

LEFT = [
    "rate_write_masks_alert", "refused_start_moves_the_pointer", "response_moves_the_pointer", "response_sets_the_mask", "standby_alters_a_value",
    "status_read_lifts_a_limit",
]


def places(crate, name):
    """Lists of files, of each of which one must refuse the edit."""
    if crate != "rules":
        return [[f"proofs/{stem}.antt" for stem in SAYING.get(crate, [])]]
    besides = [[f"proofs/{stem}.antt"] for stem in BESIDES.get(name, [])]
    return [THEOREM if name in ALARMS else SEEN if name in LEFT else TABLES + THEOREM + SEEN, *besides]


def unrefused(log, crate, name):
    """Why an edit shows nothing."""
    if not re.search("^logic=not-proved$", log, re.M):
        return "the prover gave no verdict"
    return next((why for at in places(crate, name) if (why := unfit(log, at))), "")


def told(gate, crate, name):
    """Why what `rt ci` tells of an edit shows nothing: it is to be refused, at an error that is one of a fact, and not only by a limit of the prover or a
    name that is gone, which rt tells in brackets."""
    lines = re.findall(rf"^rt: must-fail {crate}/{re.escape(name)}\.edit: (.*)$", gate, re.M)
    if len(lines) != 1:
        return f"rt ci tells of it {len(lines)} times"
    m = re.fullmatch(r"refused, as it must be: (\S+:\d+:\d+: error.*|note: .*|error.*)", lines[0])
    return unfit(m[1]) if m else f"rt ci: {lines[0][:160]}"


def whole(gate, edits):
    """What is wrong with the end of what `rt ci` said, where it tried so many edits."""
    ok = re.findall(r"^rt: ok; handles allowed: none; must-fail edits: (\d+) refused(.*?);", gate, re.M)
    return [] if ok == [(str(edits), "")] and re.search(r"^\d+ passed, 0 failed\n\Z", gate, re.M) else [f"it says {ok}"]


# What the gate may spend on edits, whatever has landed: of its 25 minutes some twelve, at five to six seconds of one core for a weight of 1. An edit
# costs its crate's own check. A request of document 02 brings at most five edits of definitions and two of code; others make room for them.
WEIGHTS = {
    "rules": 1, "text_rules": 1, "replay_rules": 3, "console_rules": 1, "saved_rules": 1, "session_rules": 2, "power": 1, "judge": 4, "values": 3, "channel": 3, "events": 2, "registers": 3,
    "blocks": 2, "show": 3, "console": 6, "saved": 4, "dlaveth": 9, "session": 5, "chip": 3, "replay": 7, "text": 4, "change": 4, "parts": 2,
}
BUDGET = 250


def spent(edits):
    """The weight of a list of crates, one for each edit; a crate without a weight counts most."""
    return sum(WEIGHTS.get(crate, max(WEIGHTS.values())) for crate in edits)


def budget():
    check("the weight of edits is counted", differs([spent(["rules", "chip", "none"])], [13]))
    crates = [crate for crate, _ in must_fail()]
    check(f"{len(crates)} must-fail edits weigh {spent(crates)}: at most {BUDGET}", [] if spent(crates) <= BUDGET else ["they weigh more"])
    bare = [crate for crate in {path.parent.parent.name for path in ROOT.glob("crates/*/src/lib.rt")} if crate not in crates]
    check("every library has an edit", bare)
    for sort, edits in ("named edits of the mutation run", named()), ("must-fail edits", must_fail()):
        found = []
        for crate, path in edits:
            try:
                changed(crate, path.read_text())
            except (OSError, ValueError) as error:
                found.append(f"{crate}/{path.stem}: {error}")
        check(f"{len(edits)} {sort} can be made in the code as it stands", found)
    for name, edit in ("text that is not there", "file: src/lib.rt\nold: no such\nnew: x\n"), ("no change", "file: src/lib.rt\n"):
        try:
            check(f"a named edit with {name} is found", [] if not changed("chip", edit) else ["it is not"])
        except ValueError:
            check(f"a named edit with {name} is found", [])


def edits():
    form = ["it has no `Need-x` that", "`true` is not in scope: add", "module `M` has no `f` that can be named", "a record `R` has no field `x`"]
    check("an edit that only breaks the proof's form is found", [text for text in form if not unfit(f"a.antt:1:1: error: {text}", [])])
    follows = "./proofs/Tables.antt:1:1: error: 2 declarations that depend on `x`, which was {}, were not checked: y, z (via y)"
    check("what only follows from an error counts as none", [text for how in ("rejected", "not admitted") if not unfit(text := follows.format(how), ["proofs/Tables.antt"])])
    log = "a.antt:1:1: error: `rw`: no occurrence of the path's left endpoint\nlogic=not-proved"
    check("an edit refused at a rewrite counts", [unfit(log, [])] if unfit(log, []) else [])
    check("an edit of the rules refused outside the tables and the theorem is found", [] if unfit(log, TABLES + THEOREM) else ["it is not"])
    advice = "note: finished `.antt` files with imports that nothing uses: 1\n"
    noted = "note: src/lib.rt:35:1: it is not proved that what the function ensures holds when it returns (`returns`)"
    check("advice is no error, and a fact that is not proved of the code is one", differs([bool(unfit(advice)), bool(unfit(advice + noted))], [True, False]))
    law = "./proofs/Steps.antt:1:1: error: x\n./proofs/Tables.antt:1:1: error: x\nlogic=not-proved"
    claim = law + "\n./proofs/Ended.antt:1:1: error: x"
    check("an edit that no claim of the end of a conversion refuses is found", differs([bool(unrefused(log, "rules", ENDED[0])) for log in (law, claim)], [True, False]))
    check("an edit with no verdict is found", [] if unrefused("./proofs/Steps.antt:1:1: error: x", "chip", "a") else ["it is not"])
    line = "rt: must-fail c/a.edit: {}\n"
    good = "refused, as it must be: ./proofs/f/Proof.antt:1:1: error: x"
    check("an edit that rt ci refuses at a fact is accepted", [why] if (why := told(line.format(good), "c", "a")) else [])
    bad = ["NOT REFUSED: the crate", "BAD EDIT: it changes nothing", "refused, as it must be", "refused, as it must be (only by a limit of the prover): ./a.antt:1:1: error: x",
           "refused, as it must be (only because a proof file names it): ./a.antt:1:1: error: x", "refused, as it must be: ./a.antt:1:1: error: it has no `Need-x` that"]
    check("an edit that rt ci refuses otherwise, or not, is found", [text for text in bad if not told(line.format(text), "c", "a")])
    check("an edit of which rt ci tells nothing is found", [] if told(line.format(good), "c", "b") else ["it is not"])
    ends = "rt: ok; handles allowed: none; must-fail edits: 7 refused{}; every proof\n8 passed, 0 failed\n"
    check("a bad edit in the gate is found", differs([bool(whole(ends.format(text), 7)) for text in ("", ", 1 bad", ", 2 of them only by a limit")], [False, True, True]))
    gate = GATE.read_text() if GATE.exists() else ""
    check(f"rt ci tried the {len(must_fail())} must-fail edits, and none was bad or refused only by a limit", whole(gate, len(must_fail())))
    missing = [name for name in [*ALARMS, *LEFT, *BESIDES] if not (ROOT / "crates" / "rules" / "must-fail" / f"{name}.edit").exists()]
    check("the edits that the alarm theorem and what an event leaves alone must refuse are there", missing)
    found, digests = [], Digests()
    for crate, path in must_fail():
        log = said_of(crate, digests, path)
        if why := told(gate, crate, path.stem) or ("not checked by tests/trials.py" if log is None else unrefused(log, crate, path.stem)):
            found.append(f"{crate}/{path.stem}: {why}")
    check(f"{len(must_fail())} must-fail edits are refused in a proof that fits the code's form, those of definitions by a table or a claim", found)


# ---- what the proofs rest on


# The contracts of C that a program may rest on: those by which std reads, writes and tells an error.
OF_C = ["libc::read", "libc::write", "os::c::__xpg_strerror_r", "os::c::rattle_errno"]


def resting(said, axioms, trusted):
    """What a crate's check took on trust beyond what docs/PROMISES.md says: its lines, the axioms that it may name, and what may be trusted."""
    lines = [line for line in said.splitlines() if line.startswith("logic=")]
    if len(lines) != 1 or not lines[0].startswith("logic=proved "):
        return ["it is not proved"]
    words = dict(word.partition("=")[::2] for word in lines[0].split())
    named = sorted(name for names in re.findall(r"^axioms \w+: (.*) \(\d+ of the \d+ declared\)$", said, re.M) for name in names.split(", "))
    found = [] if int(words.get("axioms", 0)) == len(axioms) and named == sorted(axioms) else [f"axioms: {words.get('axioms', 0)}: {', '.join(named)}"]
    return found + [f"{name}={value}" for name, value in words.items() if name == "foreign" or value == "trusted" and name not in trusted]


def proved_by(gate, crate):
    """What `rt ci` said of a crate's own proof, or '' where it tells that an earlier run of it proved the same files; None where it tells neither."""
    if m := re.search(rf"^== {crate}\n((?:(?!== ).*\n)*?)rt: {crate} proved$", gate, re.M):
        return m[1]
    return "" if re.search(rf"^rt: {crate} is kept: an earlier run on this machine proved the same files over the same libraries$", gate, re.M) else None


def trust():
    """`rt ci` proves from nothing, and shows what a proof rests on, unless an earlier run of it did so. So its own lines are held to no cache where they are
    there, and to nothing else's words; and each crate's check by tests/trials.py, over what earlier checks kept (`incremental`), to its axioms."""
    built = {"logic-built", "libraries-built", "statements"}
    good = "axioms libc: libc::read, libc::write (2 of the 9 declared)\nlogic=proved functions=4 axioms=2 native=nat logic-built=trusted libraries-built=trusted"
    two = ["libc::read", "libc::write"]
    check("two axioms where two are meant are none too many", resting(good, two, built))
    for name, said, axioms in [
        ("an axiom too many", good, []), ("another axiom", good.replace("::read", "::fork"), two), ("an axiom too few", good, [*two, "libc::lseek"]),
        ("a cache", good + " cache=trusted", two), ("a proof over what was kept", good + " incremental=trusted", two), ("a function of C", good + " foreign=1", two),
        ("a crate that is not proved", "logic=not-proved", []),
    ]:
        check(f"{name} is found", [] if resting(said, axioms, built) else ["it is not"])
    gate = "== a\nlogic=proved x=1\nrt: a proved\n== b\nlogic=not-proved\nrt: b NOT PROVED\n== c: its tests\nrt: c: its tests are proved\nrt: d is kept: an earlier run on this machine proved the same files over the same libraries\n"
    check("what rt ci says of a crate is told apart", differs([proved_by(gate, name) for name in "abcd"], ["logic=proved x=1\n", None, None, ""]))
    gate, digests = GATE.read_text() if GATE.exists() else "", Digests()
    for path in sorted((ROOT / "crates").iterdir()):
        own, said = proved_by(gate, path.name), said_of(path.name, digests)
        axioms = OF_C if (path / "src" / "main.rt").exists() else []
        wrong = ["rt ci did not prove it"] if own is None else resting(own, axioms, built) if own else []
        wrong += ["it was not checked by tests/trials.py"] if said is None else resting(said, axioms, built | {"incremental"})
        check(f"{path.name} rests on {len(axioms)} axioms, and rt ci proved it from no cache", wrong)


# ---- the hand-worked cases


def cases():
    tool = ROOT / "tools" / "cases.py"
    run = subprocess.run([sys.executable, tool, "check"], capture_output=True, text=True)
    check("the cases' program has what tests/cases.txt says", [run.stderr] if run.returncode else [])
    for by, name in ("LLVM", "stdout"), ("Rattle's own compiler", "stdout.by-rattle"):
        log = ROOT / "crates" / "cases" / "out" / name    # as rt ci leaves it
        wrote = log.read_text() if log.exists() else ""
        check(f"the cases were run, built by {by}", [] if wrote else [f"crates/cases/out/{name} is not there or empty"])
        run = subprocess.run([sys.executable, tool, "show"], input=wrote, capture_output=True, text=True)
        check(f"every case, built by {by}, is as document 01 has it", run.stdout.splitlines()[-1:] if run.returncode else [])
    spoilt = wrote.replace("0 18 0 0", "0 18 0 1", 1)
    run = subprocess.run([sys.executable, tool, "show"], input=spoilt, capture_output=True, text=True)
    check("a wrong answer is found", [] if run.returncode else ["it is not"])
    run = subprocess.run([sys.executable, tool, "show", "more"], capture_output=True, text=True)
    check("a wrong call is refused", [] if run.returncode else ["it is not"])


def main():
    contracts()
    documents()
    names()
    sentences()
    claims()
    edits()
    budget()
    trust()
    cases()
    end()


main()
