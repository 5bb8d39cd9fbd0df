#!/usr/bin/env python3
"""Writes the cases of the program `cases`, one a line, and what it has to answer: the files stdin and stdout beside
this one. The answers are worked out here, from the rules as they are restated below, and from nothing else.

A line begins with what is asked; every other word is a decimal number or the name of a question:

  minutes LIMIT COUNT cut* QUESTION      posts M QUESTION
      where QUESTION is classes, opening, class V, rule R V V, check C V V, test T I J or number N
  draft N T P production* W spelling*
      production: LEFT TEST SIGHT RULE SLOT SLOT COUNT item*
      item:       1 KIND, or 2 NONTERMINAL RULE SLOT SLOT, or 3 CHECK SLOT SLOT
      spelling:   KIND NUMBER LENGTH byte*
  text LENGTH byte*
  sheet LENGTH byte*
  blank COUNT        a sheet of COUNT spaces
"""

from pathlib import Path


# Domains: what the values of symbols mean.

class Minutes:
    """Lengths of time up to a limit, sorted into classes by up to seven cuts."""

    def __init__(self, limit, cuts):
        self.limit, self.cuts = limit, cuts
        rising = all(low < high for low, high in zip(cuts, cuts[1:]))
        self.made = 1 <= limit <= 65535 and len(cuts) <= 7 and rising and all(1 <= cut <= limit for cut in cuts)
        self.classes = len(cuts) + 1

    def line(self):
        return ["minutes", self.limit, len(self.cuts), *self.cuts]

    def class_of(self, value):
        return sum(1 for cut in self.cuts if cut <= value)

    def rule(self, number, first, second):
        """Rule 1 is the second value, 2 the sum held at the limit, 3 the difference held at 0, all others the first."""
        return {1: second, 2: min(first + second, self.limit), 3: max(first - second, 0)}.get(number, first)

    def check(self, number, first, second):
        """Check 0 says yes, 1 asks for at most, 2 for equal; the others say no."""
        return {0: True, 1: first <= second, 2: first == second}.get(number, False)

    def test(self, number, i, j):
        """Test 0 says yes. The others look at two classes and say no where one of them is none of the domain's."""
        if number == 0:
            return True
        inside = i < self.classes and j < self.classes
        return inside and {1: i == j, 2: i != j, 3: i < j, 4: i >= j}.get(number, False)

    def number(self, n):
        return n if n <= self.limit else None


class Posts:
    """Sets of at most six posts, as numbers: bit b stands for post b + 1. The class is the set of the depot's own."""

    def __init__(self, posts):
        self.posts = posts
        self.made = 1 <= posts <= 6
        self.classes = 2 ** posts

    def line(self):
        return ["posts", self.posts]

    def class_of(self, value):
        return value % self.classes

    def rule(self, number, first, second):
        """Rule 1 is the second set, 2 the union, 3 the first without the second, all others the first."""
        return {1: second, 2: first | second, 3: first & ~second}.get(number, first)

    def check(self, number, first, second):
        """Check 0 says yes, 1 asks whether the first lies within the second, 2 for equal, 3 for no common post."""
        within = all(not first >> b & 1 or second >> b & 1 for b in range(6))
        return {0: True, 1: within, 2: first == second, 3: first & second == 0}.get(number, False)

    def test(self, number, i, j):
        """Test 0 says yes, 1 asks for no common post, 2 for some common post, 3 for equal."""
        if number == 0:
            return True
        inside = i < self.classes and j < self.classes
        return inside and {1: i & j == 0, 2: i & j != 0, 3: i == j}.get(number, False)

    def number(self, n):
        return n if n < self.classes else None


def ask(domain, question, *given):
    """One question to a domain, with its answer."""
    if not domain.made:
        answer = "refused 9"
    elif question == "classes":
        answer = domain.classes
    elif question == "opening":
        answer = 0
    elif question == "class":
        answer = domain.class_of(*given)
    elif question == "rule":
        answer = domain.rule(*given)
    elif question == "check":
        answer = "yes" if domain.check(*given) else "no"
    elif question == "test":
        answer = "yes" if domain.test(*given) else "no"
    else:
        value = domain.number(*given)
        answer = "none" if value is None else value
    return [*domain.line(), question, *given], answer


def domain_cases():
    cases = []

    def put(domain, question, *given):
        cases.append(ask(domain, question, *given))

    # Which domains there are: the limit, the count of cuts, their order and their range.
    seven = [1, 2, 3, 4, 5, 6, 7]
    for limit, cuts in [
        (0, []), (1, []), (1440, []), (65535, []), (0, [1]), (1, [1]), (1, [2]), (1, [0]), (1440, [0]), (1440, [1]),
        (1440, [1440]), (1440, [1441]), (1440, [90]), (1440, [90, 90]), (1440, [90, 91]), (1440, [91, 90]),
        (1440, [90, 91, 91]), (1440, [90, 120, 119]), (1440, [0, 90]), (1440, [90, 1440]), (1440, [90, 1441]), (7, seven),
        (6, seven), (65535, seven), (65535, [1, 2, 3, 4, 5, 6]), (65535, [1, 2, 3, 4, 5, 6, 65535]),
        (65535, [1, 2, 3, 4, 5, 6, 6]), (65535, [2, 1, 3, 4, 5, 6, 7]), (65535, [*seven, 8]), (65535, [*seven, 7]),
        (1440, [1440, 90]), (1440, [65535]), (65535, [65534, 65535]),
    ]:
        put(Minutes(limit, cuts), "classes")
    for posts in [0, 1, 2, 3, 4, 5, 6, 7, 8, 64, 255]:
        put(Posts(posts), "classes")
    # A domain that cannot be made answers no question.
    for question in [["opening"], ["class", 0], ["rule", 0, 1, 2], ["check", 0, 0, 0], ["test", 0, 0, 0], ["number", 0]]:
        put(Minutes(0, []), *question)
        put(Posts(7), *question)

    plain, short = Minutes(1440, []), Minutes(1, [1])
    cut, full = Minutes(1440, [90]), Minutes(65535, [1, 2, 100, 1000, 10000, 65534, 65535])
    one, three, six = Posts(1), Posts(3), Posts(6)
    for domain in [plain, short, full, one, six]:
        put(domain, "opening")

    for domain, values in [
        (plain, [0, 1440, 65535]), (short, [0, 1, 2]), (cut, [0, 89, 90, 91, 1440, 1441, 65535]),
        (full, [0, 1, 2, 3, 99, 100, 999, 1000, 9999, 10000, 65533, 65534, 65535]),
        (one, [0, 1, 2, 3, 63]), (three, [0, 5, 7, 8, 13, 63]), (six, [0, 31, 32, 63]),
    ]:
        for value in values:
            put(domain, "class", value)

    # The named rules, those on both sides of them, and the last number.
    for number in [0, 1, 2, 3, 4, 255]:
        for first, second in [(900, 900), (30, 20), (20, 30), (1500, 0)]:
            put(plain, "rule", number, first, second)
        for first, second in [(5, 4), (63, 40), (0, 9)]:
            put(three, "rule", number, first, second)
    for first, second in [(65535, 65535), (65535, 0), (0, 65535), (65534, 1), (65535, 1)]:
        put(full, "rule", 2, first, second)
        put(full, "rule", 3, first, second)
    for first, second in [(700, 739), (700, 740), (700, 741), (65535, 65535)]:
        put(plain, "rule", 2, first, second)
    put(short, "rule", 2, 1, 1)
    put(short, "rule", 3, 7, 2)

    for number in [0, 1, 2, 3, 4, 255]:
        for first, second in [(30, 30), (30, 31), (31, 30)]:
            put(plain, "check", number, first, second)
        for first, second in [(5, 5), (1, 5), (5, 1), (2, 5)]:
            put(three, "check", number, first, second)
    for first, second in [(65535, 65535), (65535, 0), (0, 65535)]:
        put(full, "check", 1, first, second)
    for first, second in [(63, 63), (32, 31), (63, 62), (62, 63)]:
        put(six, "check", 1, first, second)
        put(six, "check", 3, first, second)

    # Classes below the count, at it and above it.
    for number in [0, 1, 2, 3, 4, 5, 255]:
        for i, j in [(0, 0), (0, 1), (1, 0), (1, 1), (1, 2), (2, 1)]:
            put(cut, "test", number, i, j)
        for i, j in [(2, 7), (7, 7), (7, 8)]:
            put(full, "test", number, i, j)
        put(plain, "test", number, 0, 0)
        put(plain, "test", number, 65535, 0)
    for number in [0, 1, 2, 3, 4, 255]:
        for i, j in [(0, 0), (3, 4), (3, 1), (7, 7), (7, 8), (8, 7)]:
            put(three, "test", number, i, j)
        for i, j in [(63, 63), (63, 64)]:
            put(six, "test", number, i, j)
        put(one, "test", number, 1, 1)
        put(one, "test", number, 2, 1)

    for domain, numbers in [
        (plain, [0, 1, 1439, 1440, 1441, 65535]), (short, [0, 1, 2]), (full, [0, 65534, 65535]),
        (one, [0, 1, 2]), (three, [0, 7, 8, 63]), (six, [0, 63, 64, 65535]),
    ]:
        for number in numbers:
            put(domain, "number", number)
    return cases


# Drafts of tables. An item is ("kind", k), ("nonterminal", b, rule, slot, slot) or ("check", c, slot, slot).

FULL = 2 ** 64 - 1


def production(left, items=(), result=(0, 0, 0), test=0, sight=FULL):
    return {"left": left, "test": test, "sight": sight, "result": result, "items": list(items)}


def spelling(kind, text, number=0):
    return {"kind": kind, "number": number, "bytes": list(text)}


def broken(n, t, productions, spellings):
    """The numbers of the rules that a draft breaks."""
    rules = set()
    # 1: the four counts have their ranges.
    if not (1 <= n <= 64 and 1 <= t <= 63 and 1 <= len(productions) <= 126 and len(spellings) <= 248):
        rules.add(1)
    for p in productions:
        # 2: the left side is a nonterminal; 3: there are at most eight items.
        if p["left"] >= n:
            rules.add(2)
        if len(p["items"]) > 8:
            rules.add(3)
        for place, item in enumerate(p["items"], 1):
            # 4: a kind is one of the table's, and so is a nonterminal.
            if item[0] == "kind" and item[1] >= t or item[0] == "nonterminal" and item[1] >= n:
                rules.add(4)
            # 5: the item in place i names slots below i.
            if item[0] != "kind" and max(item[-2:]) >= place:
                rules.add(5)
        # 5: the result names slots up to the count of items.
        if max(p["result"][1:]) > len(p["items"]):
            rules.add(5)
    for s in spellings:
        # 6: one to twelve bytes from 33 to 126, not digits alone.
        letters = s["bytes"]
        fair = 1 <= len(letters) <= 12 and all(33 <= byte <= 126 for byte in letters)
        if not fair or all(48 <= byte <= 57 for byte in letters):
            rules.add(6)
        # 8: the kind is one of the table's, but not the number word's.
        if not 1 <= s["kind"] < t:
            rules.add(8)
    # 7: every nonterminal is a left side.
    if {b for b in range(n)} - {p["left"] for p in productions}:
        rules.add(7)
    # 8: no spelling occurs twice.
    if len({bytes(s["bytes"]) for s in spellings}) < len(spellings):
        rules.add(8)
    return rules


def draft(n, t, productions, spellings=()):
    """A draft, with the lowest rule that it breaks."""
    words = ["draft", n, t, len(productions)]
    for p in productions:
        words += [p["left"], p["test"], p["sight"], *p["result"], len(p["items"])]
        for item in p["items"]:
            words += [{"kind": 1, "nonterminal": 2, "check": 3}[item[0]], *item[1:]]
    words.append(len(spellings))
    for s in spellings:
        words += [s["kind"], s["number"], len(s["bytes"]), *s["bytes"]]
    rules = broken(n, t, productions, spellings)
    return words, f"refused {min(rules)}" if rules else "made"


def table_w():
    """WHEN, PARK and ELSE are the kinds 1, 2 and 3."""
    whenever = [("kind", 1), ("nonterminal", 0, 0, 0, 0), ("nonterminal", 1, 0, 0, 0)]
    otherwise = [("kind", 3), ("nonterminal", 0, 0, 0, 0)]
    productions = [production(0, whenever), production(0, [("kind", 2)]), production(1, otherwise),
                   production(1, sight=FULL - 2 ** 3)]
    return 2, 4, productions, [spelling(1, b"WHEN"), spelling(2, b"PARK"), spelling(3, b"ELSE")]


def names(count):
    """So many spellings of kind 1, all different, of two signs each."""
    return [spelling(1, [33 + i // 60, 65 + i % 60 // 2, 33][: 2 + i % 2]) for i in range(count)]


# One way to break each rule, made so that any number of them can be done to table W one after the other.

def break_1(n, t, productions, spellings):
    return n, 64, productions, spellings


def break_2(n, t, productions, spellings):
    return n, t, [*productions, production(65)], spellings


def break_3(n, t, productions, spellings):
    return n, t, [production(0, [("kind", 1)] * 9), *productions], spellings


def break_4(n, t, productions, spellings):
    return n, t, [*productions, production(1, [("kind", 64)])], spellings


def break_5(n, t, productions, spellings):
    return n, t, [production(1, [], (0, 0, 1)), *productions], spellings


def break_6(n, t, productions, spellings):
    return n, t, productions, [*spellings, spelling(1, b"1440")]


def break_7(n, t, productions, spellings):
    return n + 1, t, productions, spellings


def break_8(n, t, productions, spellings):
    return n, t, productions, [spelling(0, b"PART"), *spellings]


BREAKS = [break_1, break_2, break_3, break_4, break_5, break_6, break_7, break_8]


def after(breaks):
    """Table W after these have been done to it."""
    parts = table_w()
    for one in breaks:
        parts = one(*parts)
    assert broken(*parts) == {BREAKS.index(one) + 1 for one in breaks}
    return draft(*parts)


def draft_cases():
    cases = [draft(*table_w())]

    def put(*parts):
        cases.append(draft(*parts))

    # Each rule broken alone, each with one higher, each with all higher ones.
    for i, lower in enumerate(BREAKS):
        cases.append(after([lower]))
        for higher in BREAKS[i + 1:]:
            cases.append(after([lower, higher]))
        if i < 6:
            cases.append(after(BREAKS[i:]))

    # 1: the counts. Short sight sets keep the long lines short.
    def lefts(count, n=1):
        return [production(i % n, sight=0) for i in range(count)]

    for n in [0, 1, 2, 63, 64, 65]:
        put(n, 1, lefts(n, max(n, 1)))
    put(0, 1, lefts(1))
    put(255, 1, lefts(1))
    for t in [0, 1, 2, 62, 63, 64, 255]:
        put(1, t, lefts(1))
    for p in [0, 1, 125, 126, 127]:
        put(1, 1, lefts(p))
    for w in [0, 1, 247, 248, 249]:
        put(1, 2, lefts(1), names(w))
    put(0, 0, [])
    put(65, 64, lefts(127), [])
    put(1, 2, [production(1, sight=0)], names(249))
    # Lower rules go first even where a later part of the draft breaks them.
    put(1, 2, [production(0, [("kind", 2)])], names(249))
    put(1, 1, [production(0, [("kind", 1)]), *lefts(126)])

    # 2: left sides.
    for left in [0, 1, 2, 3, 255]:
        put(2, 1, [production(0), production(1), production(left)])
    put(64, 1, [*lefts(64, 64), production(63)])
    put(64, 1, [*lefts(64, 64), production(64)])
    put(1, 1, [production(1), production(0)])
    put(1, 1, [production(1)])

    # 3: items.
    for count in [0, 1, 7, 8, 9, 10]:
        put(1, 1, [production(0, [("kind", 0)] * count)])
        put(1, 1, [production(0, [("check", 0, 0, 0)] * count, (0, count, count))])
    put(1, 1, [production(0), production(0, [("nonterminal", 0, 0, i, i) for i in range(9)])])
    put(1, 1, [production(0), production(0, [("nonterminal", 0, 0, i, i) for i in range(8)])])
    # Nine items, of which the ninth breaks 4 or 5 as well.
    put(1, 1, [production(0, [("kind", 0)] * 8 + [("kind", 1)])])
    put(1, 1, [production(0, [("kind", 0)] * 8 + [("check", 0, 9, 0)])])

    # 4: kinds and nonterminals of items, in the first place and the last.
    for t, kind in [(1, 0), (1, 1), (4, 3), (4, 4), (63, 62), (63, 63), (63, 64), (4, 255)]:
        put(1, t, [production(0, [("kind", kind)])])
        put(1, t, [production(0, [("check", 0, 0, 0)] * 7 + [("kind", kind)])])
    for b in [0, 1, 2, 3, 255]:
        put(2, 1, [production(0, [("nonterminal", b, 0, 0, 0)]), production(1)])
    put(64, 1, [*lefts(63, 63), production(63, [("nonterminal", 63, 0, 0, 0)])])
    put(64, 1, [*lefts(63, 63), production(63, [("nonterminal", 64, 0, 0, 0)])])
    # Check numbers, rule numbers and tests have no bound to break.
    put(1, 1, [production(0, [("check", 255, 0, 0), ("nonterminal", 0, 255, 1, 0)], (255, 2, 1), test=255)])

    # 5: slots of the item in place i, and of the result.
    for place in [1, 2, 7, 8]:
        before = [("kind", 0)] * (place - 1)
        for first, second in [(place - 1, place - 1), (place, 0), (0, place), (255, 0)]:
            put(1, 1, [production(0, [*before, ("check", 0, first, second)])])
            put(1, 1, [production(0, [*before, ("nonterminal", 0, 0, first, second)])])
    for count in [0, 1, 7, 8]:
        for first, second in [(count, count), (count + 1, 0), (0, count + 1)]:
            put(1, 1, [production(0, [("kind", 0)] * count, (0, first, second))])
    put(1, 1, [production(0, [], (0, 255, 0))])
    put(1, 1, [production(0, [("kind", 0)] * 8, (0, 9, 9))])

    # 6: bytes, lengths, digits.
    for text in [
        [32], [33], [126], [127], [0], [10], [128], [255], [65, 32], [32, 65], [65, 33, 126], [65, 127, 65], [],
        b"A", b"ABCDEFGHIJKL", b"ABCDEFGHIJKLM", b"0", b"9", b"/", b":", b"90", b"90A", b"A90", b"123456789012",
        b"12345678901A", b"1-2", b"00000", b"/9", b"9:",
    ]:
        put(1, 2, [production(0)], [spelling(1, text)])
    put(1, 2, [production(0)], [spelling(1, []), spelling(1, [])])
    put(1, 2, [production(0)], [spelling(1, b"AB"), spelling(1, b"12"), spelling(1, b"AB")])
    put(1, 2, [production(0)], [*names(100), spelling(1, [127])])

    # 7: nonterminals without a production, the first, one between and the last.
    put(2, 1, [production(1)])
    put(2, 1, [production(0)])
    put(3, 1, [production(0), production(2), production(0)])
    put(3, 1, [production(2), production(1), production(0)])
    put(64, 1, lefts(63, 63))
    put(64, 1, lefts(64, 64)[::-1])
    put(2, 1, lefts(126))

    # 8: kinds of spellings, and spellings that occur twice.
    for t, kind in [(1, 0), (1, 1), (2, 0), (2, 1), (2, 2), (4, 3), (4, 4), (63, 62), (63, 63), (4, 255)]:
        put(1, t, [production(0)], [spelling(kind, b"AB")])
    for number in [0, 1, 65535]:
        put(1, 2, [production(0)], [spelling(1, b"AB", number)])
    for words in [
        [b"AB", b"AB"], [b"AB", b"BA"], [b"AB", b"ab"], [b"AB", b"ABC"], [b"A", b"AA"], [b"AB", b"CD", b"AB"],
        [b"CD", b"AB", b"AB"], [b"ABCDEFGHIJKL", b"ABCDEFGHIJKM"], [b"ABCDEFGHIJKL", b"ABCDEFGHIJKL"],
        [b"BBCDEFGHIJKL", b"ABCDEFGHIJKL"],
    ]:
        put(1, 3, [production(0)], [spelling(1 + i % 2, word, i) for i, word in enumerate(words)])
    put(1, 2, [production(0)], [spelling(1, b"AB", 1), spelling(1, b"AB", 2)])
    put(1, 2, [production(0)], [*names(247), names(1)[0]])
    put(1, 2, [production(0)], [*names(247), names(248)[247]])
    put(2, 2, [production(0)], [*names(20), names(1)[0]])
    return cases


# Texts and their words.

def runs(text):
    """The longest runs of bytes other than the space and the line's end, each with its place."""
    found, start = [], None
    for place, byte in enumerate([*text, 32]):
        separator = byte in (10, 32)
        if not separator and start is None:
            start = place
        if separator and start is not None:
            found.append((start, text[start:place]))
            start = None
    return found


def only_digits(run):
    return all(48 <= byte <= 57 for byte in run)


def text_case(text):
    words = ["text", len(text), *text]
    answer = [word for place, run in runs(text) for word in ("N" if only_digits(run) else "S", place, len(run))]
    return words, " ".join(map(str, answer)) or "none"


# A sheet: its words in table W, with Minutes of limit 1,440 and no cut.

SPELLED = {b"WHEN": 1, b"PARK": 2, b"ELSE": 3}


def kind_of(run):
    """The kind of a run, or the refusal that it meets."""
    if not only_digits(run):
        # 14: it has to be a spelling. The spellings carry the number 0, which is a value.
        return (SPELLED[run], None) if run in SPELLED else (None, 14)
    # 15: five digits at most, and 65,535 at most; 16: the domain ends at its limit.
    if len(run) > 5 or int(run) > 65535:
        return None, 15
    return (0, None) if int(run) <= 1440 else (None, 16)


def sheet_case(text):
    words = ["sheet", len(text), *text]
    kinds = ["words"]
    for count, (place, run) in enumerate(runs(text), 1):
        kind, refusal = kind_of(run)
        if refusal:
            return words, f"denied {refusal} byte {place} word {count}"
        kinds.append(kind)
    return words, " ".join(map(str, kinds))


TEXTS = [
    # No word at all.
    b"", b" ", b"\n", b"  \n \n\n  ",
    # One word, with separators before and after.
    b"PARK", b" PARK", b"PARK ", b"\nPARK\n", b"   \n PARK \n\n  ", b"7", b" 7", b"7 ", b"\n\n7\n\n",
    # More words, with one separator or several.
    b"WHEN WHEN PARK ELSE PARK", b"WHEN\nWHEN\nPARK\nELSE\nPARK\n", b"WHEN  \n WHEN   PARK\n\nELSE PARK", b"WHEN ELSE",
    b"A B C D E F G H", b"1 2 3 4 5 6 7 8", b"1 A 2 B", b"A1 1A 1 A", b"WHEN 90 PARK", b"ELSE ELSE", b"0", b"00", b"0 0",
    # Digits, and what lies beside them.
    b"/ : 0/ 9: /0 :9", b"1.5 -3 +3 1,440 1e3", b"0123456789", b"0x10", b"90m",
    # Other bytes part nothing.
    b"WHEN\tPARK", b"\t", b"WHEN\t PARK", b"\r\n", b"PARK\r\n", b"WHEN\x00PARK", b"\x00", b"\x0b\x0c", b"90\t", b"90\x00",
    b"\x1f", b"\x09 \x0b \x21", b"\x7f", b"\x80", b"\xff\xfe", b"P\xc3\x84RK", b"\xc2\xa0PARK", b"PARK\xa0",
    # Long words and many words.
    b"A" * 12, b"A" * 13, b"B" * 300, b"1" * 300, b"PARK " * 60, b"1440\n" * 40, b"W 1 " * 40, b" " * 200 + b"PARK",
    bytes(range(33, 127)), bytes(range(128, 256)), bytes(range(256)),
]

# Texts that are sheets, or nearly.
SHEETS = [
    # Spellings are equal byte for byte.
    b"when", b"When", b"WHE", b"WHENE", b"WHENPARK", b"EWHEN", b"PARK,", b"PARK PARk", b"ELSE\x00", b"WWHEN", b"W",
    # Numbers at their bounds.
    b"90", b"00090", b"000090", b"1440", b"1441", b"01440", b"01441", b"001440", b"65535", b"65536", b"99999", b"00000",
    b"000000", b"100000", b"10000", b"09999", b"065535", b"65535 65536", b"123456789012345678901234567890",
    b"18446744073709551616", b"18446744073709551706", b"4294967386", b"65626",
    # The first word with a fault counts, whatever comes later.
    b"WHEN X 65536 1441", b"65536 X 1441", b"1441 65536 X", b"X 1441", b"X 65536", b"65536 1441", b"1441 X", b"65536 X",
    b"1441 65536", b"WHEN PARK X", b"WHEN PARK ELSE 1441", b"90 90 99999", b"90 90 90 X", b"PARK\n\n  X", b"  X",
    b"WHEN WHEN PARK ELSE PARK PARK PARK PARK PARK PARK X", b"PARK 1440 1441 X",
]


def blank_case(count):
    """A sheet of spaces has no words; one of over 65,536 bytes is too long."""
    return ["blank", count], "words" if count <= 65536 else "denied 13 byte 0 word 0"


def text_cases():
    blanks = [blank_case(count) for count in (0, 1, 65535, 65536, 65537, 70000)]
    return blanks + [text_case(text) for text in TEXTS] + [sheet_case(text) for text in TEXTS + SHEETS]


def main():
    cases = domain_cases() + draft_cases() + text_cases()
    seen = set()
    with open(Path(__file__).with_name("stdin"), "w") as given, open(Path(__file__).with_name("stdout"), "w") as answered:
        for words, answer in cases:
            line = " ".join(map(str, words))
            if line not in seen:
                seen.add(line)
                assert len(line) < 4000, line[:80]
                given.write(line + "\n")
                answered.write(f"{answer}\n")


if __name__ == "__main__":
    main()
