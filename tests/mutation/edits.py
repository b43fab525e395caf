"""The small edits: each replaces one place of a unit by something that could be meant.

An edit that the compiler or the form of a proof refuses is no trial, so there are more kinds than a unit needs, and the run goes on to the
next where one was none.
"""
import re
from collections import namedtuple

Edit = namedtuple("Edit", "kind start end old new")

# Words that stand for each other.
SWAPPED = [
    ("true", "false"), ("ltb", "leb"), ("high", "low"), ("High", "Low"), ("highfine", "lowfine"), ("HighFine", "LowFine"), ("found", "flag"), ("Local", "Remote"),
    ("local", "remote"), ("Above", "Below"), ("Short", "Never"), ("alert", "therm"), ("used", "written"), ("config", "rate"), ("a", "b"),
    ("take", "drop"), ("Maker", "Revision"), ("Start", "Respond"),
    ("therm", "high"), ("Therm", "High"), ("offset", "offsetfine"),
]
WORDS = {}
for one, two in SWAPPED:
    WORDS.setdefault(one, []).append(two)
    WORDS.setdefault(two, []).append(one)
SIGNS = {
    "<": "<=", "<=": "<", "==": "!=", "!=": "==", "&&": "||", "||": "&&", "&": "|", "|": "&", "+": "-", "-": "+",
    "*": "+", "/": "*", "%": "/", "+=": "-=",
}
LESS = {"<": "≤", "≤": "<"}    # of definitions
SIGN = re.compile(r"(?<= )(<=|==|!=|&&|\|\||\+=|[<&|+*/%-])(?= )")
NUMBER = re.compile(r"(?<![\w.·])(0x[0-9a-f]+|[0-9]+)(?![\w.])")
WORD = re.compile(r"(?<![\w·-])[A-Za-z]\w*(?![\w·-])")
ATOM = re.compile(r"\s*([\w·']+(?:\.\w+)*)")


def closing(text, at):
    """Behind the bracket that closes the one at `at`."""
    depth = 0
    for place in range(at, len(text)):
        depth += (text[place] in "([{") - (text[place] in ")]}")
        if depth == 0:
            return place + 1
    return None


def arguments(text, at, count):
    """The spans of `count` arguments of an application, or None."""
    found = []
    for _ in range(count):
        while at < len(text) and text[at].isspace():
            at += 1
        if at < len(text) and text[at] == "(":
            end = closing(text, at)
        else:
            word = ATOM.match(text, at)
            end = word and word.end()
        if not end:
            return None
        found.append((at, end))
        at = end
    if re.match(r"\s*\.\w", text[at:]):    # a field of the last one: not an argument of this form
        return None
    return found


def exchanged(text, one, two):
    """The text from the first span to the end of the second with both exchanged."""
    return text[two[0]:two[1]] + text[one[1]:two[0]] + text[one[0]:one[1]]


def of_definitions(text):
    for m in re.finditer(r"(?<![\w·])cond(?= |\n)", text):
        if args := arguments(text, m.end(), 3):
            yield "branches exchanged", args[1][0], args[2][1], exchanged(text, args[1], args[2])
            yield "test dropped", m.start(), args[2][1], f"({text[args[1][0]:args[1][1]]})"
            yield "test dropped", m.start(), args[2][1], f"({text[args[2][0]:args[2][1]]})"
    for m in re.finditer(r"(?<![\w·])(ltb|leb)(?= )", text):
        if args := arguments(text, m.end(), 2):
            yield "sides exchanged", args[0][0], args[1][1], exchanged(text, args[0], args[1])
    for m in re.finditer(r"(?<= )([<≤])(?= )", text):
        yield f"{LESS[m[1]]} for {m[1]}", m.start(), m.end(), LESS[m[1]]
    for m in re.finditer(r"(?<![\w·])not (\([^()]*\)|\w+)", text):
        yield "not dropped", m.start(), m.end(), m[1]
    for m in re.finditer(r"(\w+) = ([^;{}]*);( |\n\s+)(\w+) = ([^;{}]*)(?=;| \})", text):
        yield "fields exchanged", m.start(), m.end(), f"{m[1]} = {m[5]};{m[3]}{m[4]} = {m[2]}"
    for m in re.finditer(r"(?<=\()(with\w+) (\w+) ", text):
        end = closing(text, m.start() - 1)
        yield "call dropped", m.start(), end - 1, m[2]
    for m in re.finditer(r"\A (with\w+) (\w+) .*\Z", text, re.S):
        yield "call dropped", 1, m.end(), m[2]


def of_any_application(text):
    """For definitions that only apply others; most of these have another type, and are no trial."""
    for m in re.finditer(r"(?<![\w·.])[a-z]\w*(?= )", text):
        if args := arguments(text, m.end(), 2):
            yield "arguments exchanged", args[0][0], args[1][1], exchanged(text, args[0], args[1])
    for m in re.finditer(r"(?<![\w·.])[a-z]\w*(?= )", text):
        for count in [1, 2, 3]:
            if args := arguments(text, m.end(), count):
                for one in args:
                    yield "call dropped", m.start(), args[-1][1], text[one[0]:one[1]]


def parts(text):
    """What stands between the commas of a call."""
    found, depth, begin = [], 0, 0
    for place, sign in enumerate(text + ","):
        depth += (sign in "([{") - (sign in ")]}")
        if sign == "," and depth == 0:
            found.append(text[begin:place].strip())
            begin = place + 1
    return [one for one in found if one]


PLAIN = {"u8": "0", "u16": "0", "i16": "0", "i32": "0", "usize": "0", "bool": "false", "Channel": "Channel::Local",
         "ℕ": "0", "Bool": "false", "ℤ": "(Rattle.std.specs.Prelude.pos 0)"}


def of_parameters(text, head):
    """A parameter ignored, by what stands before the body; and a truth value denied."""
    for name, sort in re.findall(r"\b(\w+): (\w+)", head):
        if sort in PLAIN:
            for m in re.finditer(rf"(?<![\w.:]){name}(?!\w|: )", text):
                alone = re.search(r"\n\s*$", text[:m.start()]) and text[m.end():].startswith(",")    # a field named as the parameter
                yield "parameter ignored", m.start(), m.end(), f"{name}: {PLAIN[sort]}" if alone else PLAIN[sort]
    if re.search(r"-> bool$", head.partition("\n")[0]):
        for m in re.finditer(r"^    (?=[a-z(!])(?!let )(?!if )(?!match )", text, re.M):
            yield "denied", m.end(), m.end(), "!"


def of_signature(text, head):
    """The same for an equation of a definition."""
    sorts, _, patterns = head.partition("\n")
    sorts = [one.strip() for one in sorts.partition(" : ")[2].split("→")]
    names = patterns.split()[1:]
    if "(" not in patterns:
        for name, sort in zip(names, sorts):
            new = "[]" if sort.startswith("List ") else PLAIN.get(sort)
            if new:
                for m in re.finditer(rf"(?<![\w·.-]){re.escape(name)}(?![\w·-]| =)", text):
                    yield "parameter ignored", m.start(), m.end(), new
    if sorts[-1] == "Bool" and text.strip():
        yield "denied", len(text) - len(text.lstrip()), len(text.rstrip()), f"Rattle.std.specs.Prelude.not ({text.strip()})"
    for m in re.finditer(r"(?:(?<=[({=] )|(?<=∷ )|(?<=\n    )|(?<=\A ))((?:[\w.]+|\([^()]*\))(?: (?:[\w.]+|\([^()]*\)))*) ∷ (?!\[\]\s*$)", text):
        yield "element dropped", m.start(), m.end(), ""
    for m in re.finditer(r"(?<![\w·.-])(true|false)(?![\w·-])", text):
        yield "another word", m.start(), m.end(), f"Rattle.std.specs.Prelude.{WORDS[m[0]][0]}"
    for m in re.finditer(r"(\w+) = (\w+)(?=[; ])", text):
        if owner := re.search(r"= (\w+)\.\w+", text):
            yield "field kept", m.start(2), m.end(2), f"{owner[1]}.{m[1]}"


def of_code(text):
    for m in re.finditer(r"if ([^{}\n]*) \{\s*([^{}]*?)\s*\} else \{\s*([^{}]*?)\s*\}", text):
        yield "branches exchanged", m.start(), m.end(), f"if {m[1]} {{ {m[3]} }} else {{ {m[2]} }}"
    for m in re.finditer(r"(=> )([^\n{}]+)(,\n\s*[^\n]* => )([^\n{}]+)(?=,\n)", text):
        yield "arms exchanged", m.start(), m.end(), m[1] + m[4] + m[3] + m[2]
    for m in re.finditer(r"!(?=[a-z(])", text):
        yield "not dropped", m.start(), m.end(), ""
    for m in re.finditer(r"(\w+): ([^,:{}\n]+),(\s+)(\w+): ([^,:{}\n]+)(?=,)", text):
        yield "fields exchanged", m.start(), m.end(), f"{m[1]}: {m[5]},{m[3]}{m[4]}: {m[2]}"
    for m in re.finditer(r"\b\w+\((&?\w+(?:\.\w+)*), (&?\w+(?:\.\w+)*)(?=[,)])", text):
        if m[1] != m[2]:
            yield "arguments exchanged", m.start(1), m.end(2), f"{m[2]}, {m[1]}"
    for m in re.finditer(r"(?:\b\w+::)*\b[a-z]\w*(?=\()", text):
        end = closing(text, m.end())
        for one in parts(text[m.end() + 1:end - 1]):
            yield "call dropped", m.start(), end, one
    for m in re.finditer(r"\b[A-Z]\w* (?=\{[^{}]*\.\.(\w+)\s*\})", text):
        yield "update dropped", m.start(), closing(text, m.end()), m[1]


def of_words(text):
    for m in SIGN.finditer(text):
        yield f"{SIGNS[m[1]]} for {m[1]}", m.start(1), m.end(1), SIGNS[m[1]]
    for m in NUMBER.finditer(text):
        n = int(m[1], 0)
        yield "one more", m.start(), m.end(), hex(n + 1) if m[1].startswith("0x") else str(n + 1)
        if n:
            yield "one less", m.start(), m.end(), hex(n - 1) if m[1].startswith("0x") else str(n - 1)
    for m in WORD.finditer(text):
        if m[0] in WORDS and not text[m.end():].startswith((" => ", ": ", " = ")):
            for other in WORDS[m[0]]:
                yield "another word", m.start(), m.end(), other


def made(text, spans, makers, headed=None):
    found = []
    for start, end in spans:
        part = text[start:end]
        hidden = re.sub(r"//.*|--.*", lambda m: " " * len(m[0]), part)
        edits = [edit for make in makers for edit in make(hidden)]
        if headed:
            edits += headed(hidden, head_of(text, start))
        for kind, begin, stop, new in edits:
            if part[begin:stop] != new and part[begin:stop] == hidden[begin:stop]:
                found.append(Edit(kind, start + begin, start + stop, part[begin:stop], new))
    return found


def head_of(text, start):
    """What stands before a body: a function from its name on; a definition's signature, and its equation up to the sign."""
    function = text.rfind("\nfn ", 0, start), text.rfind(" fn ", 0, start)
    if max(function) >= 0:
        return text[max(function):start]
    begin = text.rfind("\n\n", 0, start) + 2
    signature = re.search(r"^(?:abbrev|unfoldable).*$", text[begin:start], re.M)
    return (signature[0] if signature else "") + "\n" + text[text.rfind("\n", 0, start) + 1:start].removesuffix(" =")


def clauses(text, spans):
    """The right sides of two equations that follow each other, exchanged."""
    spans = [(start, start + len(text[start:end].rstrip())) for start, end in spans]
    for one, two in zip(spans, spans[1:]):
        if text[slice(*one)] != text[slice(*two)]:
            yield Edit("clauses exchanged", one[0], two[1], text[one[0]:two[1]], exchanged(text, one, two))


def spread(found):
    """One edit of each place before a second of any, the places in turn from both ends to the middle."""
    places = {}
    for edit in found:
        places.setdefault(edit.start, []).append(edit)
    order = sorted(places)
    order = [order[i // 2] if i % 2 == 0 else order[-1 - i // 2] for i in range(len(order))]
    rounds = max(map(len, places.values()), default=0)
    return [places[at][k] for k in range(rounds) for at in order if k < len(places[at])]


def edits(text, spans, code):
    """Every edit of a unit, in the order in which they are tried."""
    if code:
        return spread(made(text, spans, [of_code, of_words])) + spread(made(text, spans, [], of_parameters))
    return (spread(made(text, spans, [of_definitions, of_words])) + list(clauses(text, spans)) + spread(made(text, spans, [], of_signature))
            + spread(made(text, spans, [of_any_application])))
