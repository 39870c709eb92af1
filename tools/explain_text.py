"""What `qgm explain` prints, read: the graphs, the firings, and cells and conditions in words."""
import functools
import os
import re
import unicodedata

# The page whose table has the rules, and what the numbers i and j of a place count by its column of places.
PAGE = os.path.join(os.path.dirname(os.path.dirname(os.path.realpath(__file__))), "docs", "rules", "README.md")
COUNTED = {"box": (None, None), "quantifier": ("quantifier", None), "conjunct": ("condition", None), "two conjuncts": ("condition", "condition"), "column": ("column", None)}


def rows_of_page(page):
    """Returns the cells of each row that begins with a link named as a rule is; none where the page can't be read."""
    try:
        with open(page, encoding="utf-8") as file:
            rows = [[cell.strip() for cell in it.strip("| \n").split("|")] for it in file if it.startswith("| [")]
    except OSError:
        return []
    return [[it[0][1:3], *it[1:]] for it in rows if re.match(r"\[[A-Z][0-9]\]\(", it[0]) and len(it) == 7]


# Of each rule its class and what it does; and what the numbers of its places count, None where it has none.
RULES = {rule: (kind, words) for rule, kind, _, _, words, _, _ in rows_of_page(PAGE)}
PLACES = {rule: COUNTED.get(place, (None, None)) for rule, _, _, place, _, _, _ in rows_of_page(PAGE)}

QUANTIFIERS = {"F": "each row is taken, as in FROM", "E": "some row meets a condition", "A": "every row meets a condition", "S": "the value of a scalar subquery"}
COMPARISONS = {"eq": "=", "ne": "<>", "lt": "<", "le": "<=", "gt": ">", "ge": ">=", "same": "is same as", "like": "LIKE"}
ARITHMETIC = {"add": ("+", 2), "sub": ("-", 2), "cat": ("||", 2), "mul": ("*", 3), "div": ("/", 3)}
AGGREGATES = ("single", "count", "sum", "avg", "min", "max")
TIPS = {
    "enforce": "each row once: DISTINCT", "permit": "may give a row any number of times", "magic": "gathers values that a subquery needs",
    "fed": "runs a subquery for the values of a magic box", "open": "names a quantifier of a box above it",
}


class Wrong(Exception):
    """The input isn't what explain prints."""


# Reading


class Box:
    """A box: its number, kind, words and lines, and what it holds."""

    def __init__(self, number, kind, words, is_open, text):
        self.number, self.kind, self.words, self.is_open = number, kind, words, is_open
        self.quants, self.conds, self.head, self.text = [], [], [], [text]


class Step:
    """A graph, and the firing after it: its rule, box, i and j."""

    def __init__(self):
        self.names, self.order, self.boxes, self.preamble, self.firing = [], [], [], [], None

    def box(self, number):
        return self.boxes[number - 1]


def lines_of(text):
    """Yields each line with its number; a line goes on after a line feed that stands within quotes."""
    at, number = 0, 1
    while at < len(text):
        end, quote = text.find("\n", at), None
        end = len(text) if end < 0 else end
        if '"' in text[at:end] or "'" in text[at:end]:
            end = at
        while end < len(text) and (quote or text[end] != "\n"):
            if quote:
                quote = None if text[end] == quote else quote
            elif text[end] in "\"'":
                quote = text[end]
            end += 1
        if quote:
            raise Wrong(f"line {number}: a quote has no end")
        yield number, text[at:end], end + 1
        number += text.count("\n", at, end) + 1
        at = end + 1


TOKEN = re.compile(r"""\s*(?:([()])|("(?:[^"]|"")*")|('(?:[^']|'')*')|([^\s()"']+))""")


def tokens_of(text):
    """Returns the tokens of a line: brackets, words, and quoted texts as they stand."""
    found, at = [], 0
    text = text.rstrip(" ")
    while at < len(text):
        it = TOKEN.match(text, at)
        if not it:
            raise Wrong(f"this can't be read: {text[at:at + 40]}")
        found.append(it[0].lstrip(" "))
        at = it.end()
    return tuple(found)


def tree_of(tokens):
    """Returns the expression that the tokens are, as a word or a tuple of expressions."""
    stack, made = [], None
    for it in tokens:
        if made is not None:
            raise Wrong("there is more after an expression")
        if it == "(":
            stack.append([])
            continue
        if it == ")":
            if not stack or not stack[-1]:
                raise Wrong("a bracket is out of place")
            it = tuple(stack.pop())
        if stack:
            stack[-1].append(it)
        else:
            made = it
    if stack or made is None:
        raise Wrong("an expression has no end")
    return made


def number(word):
    if not (word.isascii() and word.isdigit() and len(word) <= 20):
        raise Wrong(f"a number is wanted in place of {word}")
    return int(word)


def unquoted(word):
    return word[1:-1].replace(word[0] * 2, word[0])


def box_of(words, text):
    """Returns the box that a line begins."""
    if len(words) < 4 or words[-1] not in ("closed", "open"):
        raise Wrong("this is no line of a box")
    kind, own, sizes = words[2], words[3:-1], {"base": 1, "select": 2, "group": 1, "setop": 1, "outerjoin": 0}
    if sizes.get(kind) != len(own) or (kind == "base" and not own[0].startswith('"')) or (kind == "group" and number(own[0]) < 0):
        raise Wrong("this is no line of a box")
    return Box(number(words[1]), kind, own, words[-1] == "open", text)


# (most lines of a graph are those of the graph before)
@functools.lru_cache(maxsize=4096)
def line_of(text):
    """Returns the tokens of a line of a graph, and its expression or condition, or None."""
    words = tokens_of(text)
    first = {"on": 1, "where": 1, "head": 2}.get(words[0] if words else "")
    return words, tree_of(words[first:]) if first and len(words) > first else None


def add_line(step, text):
    """Adds a line of a graph to it."""
    words, tree = line_of(text)
    first = words[0] if words else ""
    if not step.boxes and first in ("out", "order"):
        if len(step.preamble) != ("out", "order").index(first):
            raise Wrong("out and order stand once each, before the boxes")
        step.preamble.append(text)
        if first == "out":
            step.names = [None if it == "-" else unquoted(it) for it in words[1:]]
        else:
            step.order = list(zip(words[1::2], words[2::2]))
    elif first == "box" and len(step.preamble) == 2:
        step.boxes.append(box_of(words, text))
        if step.boxes[-1].number != len(step.boxes):
            raise Wrong(f"box {len(step.boxes)} is wanted here")
    elif step.boxes and first in ("quant", "on", "where", "head"):
        box = step.boxes[-1]
        box.text.append(text)
        if first == "quant" and len(words) == 4 and words[2] in QUANTIFIERS:
            box.quants.append((number(words[1]), words[2], number(words[3])))
        elif first in ("on", "where") and tree is not None:
            box.conds.append(tree)
        elif first == "head" and words[1:2] in (("int",), ("text",)):
            box.head.append((words[1], tree))
        else:
            raise Wrong("this is no line of a box")
    else:
        raise Wrong("this line has no place here")


def check(step):
    """Sees that a graph has boxes, and that what it names is there."""
    if not step.boxes:
        raise Wrong("a graph has no box")
    for it in step.boxes:
        for quant, _, over in it.quants:
            if not 1 <= over <= len(step.boxes):
                raise Wrong(f"quantifier {quant} ranges over box {over}, which isn't there")
    if step.firing and not 1 <= step.firing[1] <= len(step.boxes):
        raise Wrong(f"a firing is at box {step.firing[1]}, which isn't there")


def read(text):
    """Returns the steps, the counts of firings and evaluations, and the answer's text."""
    steps, firings = [], None
    for line, it, behind in lines_of(text):
        try:
            words = it.split(" ") if it[:1] in ("G", "F", "E") else [""]
            if words[0] == "GRAPH" and len(words) == 2 and number(words[1]) == len(steps) and (not steps or steps[-1].firing):
                steps.append(Step())
            elif not steps:
                raise Wrong("GRAPH 0 is wanted here")
            elif words[0] == "FIRE" and len(words) == 6 and number(words[1]) == len(steps) and not steps[-1].firing:
                steps[-1].firing = (words[2], *map(number, words[3:]))
                check(steps[-1])
            elif words[0] == "FIRINGS" and len(words) == 2 and number(words[1]) == len(steps) - 1 and not steps[-1].firing:
                check(steps[-1])
                firings = number(words[1])
            elif words[0] == "EVALS" and len(words) == 2 and firings is not None:
                return steps, firings, number(words[1]), text[behind:]
            elif firings is None and not steps[-1].firing:
                add_line(steps[-1], it)
            else:
                raise Wrong("this line has no place here")
        except Wrong as why:
            raise Wrong(f"line {line}: {why} ({it[:60]!r})") from None
    raise Wrong("the input ends before EVALS" if steps else "there is no graph")


# Words


def plain(text):
    """Returns a text with a sign in place of each control character."""
    signs = {"\n": "\u21b5", "\t": "\u21e5"}
    return "".join(signs.get(it, "\ufffd") if it < " " or "\x7f" <= it <= "\x9f" else it for it in text)


def columns(text):
    """Returns how many places of a fixed width a text takes."""
    return sum(0 if unicodedata.combining(it) else 2 if unicodedata.east_asian_width(it) in "WF" else 1 for it in text)


def bracketed(pieces):
    return [("(", None), *pieces, (")", None)]


def chain(tree, operators):
    """Returns the operands and operators of a chain that nests to the left."""
    operands, words = [], []
    while isinstance(tree, tuple) and tree[0] in operators and len(tree) == 3:
        operands.append(tree[2])
        words.append(tree[0])
        tree = tree[1]
    return [tree, *operands[::-1]], words[::-1]


def cell(tree, rank=0):
    """Returns an expression as it reads, in pieces: a text, and the quantifier that it names."""
    name = tree[0] if isinstance(tree, tuple) else tree
    rest = tree[1:] if isinstance(tree, tuple) else ()
    if name in ARITHMETIC and len(rest) == 2:
        level = ARITHMETIC[name][1]
        operands, words = chain(tree, [it for it in ARITHMETIC if ARITHMETIC[it][1] == level])
        made = cell(operands[0], level)
        for word, it in zip(words, operands[1:]):
            made += [(f" {ARITHMETIC[word][0]} ", None), *cell(it, level + 1)]
        return bracketed(made) if level < rank else made
    if name == "int" and len(rest) == 1:
        return [(f"({rest[0]})" if rest[0].startswith("-") and rank else rest[0], None)]
    if name == "text" and len(rest) == 1:
        return [(plain(rest[0]), None)]
    if name == "null":
        return [("NULL", None)]
    if name == "col" and len(rest) == 2:
        return [(f"q{rest[0]}.{rest[1]}", rest[0])]
    if name == "scalar" and len(rest) == 1:
        return [("value of ", None), (f"q{rest[0]}", rest[0])]
    if name == "neg" and len(rest) == 1:
        return [("-", None), *cell(rest[0], 4)]
    if name == "case":
        return case(rest)
    if name == "count-all":
        return [("COUNT(*)", None)]
    if name.split("-")[0] in AGGREGATES and len(rest) == 1:
        word, _, each = name.partition("-")
        return [(f"{word.upper()}({'DISTINCT ' if each else ''}", None), *cell(rest[0]), (")", None)]
    raise Wrong(f"there is no cell {name}")


def case(rest):
    made, at = [("CASE", None)], 0
    while at + 1 < len(rest) and rest[at] != "else":
        made += [(" WHEN ", None), *cond(rest[at]), (" THEN ", None), *cell(rest[at + 1])]
        at += 2
    if rest[at:at + 1] != ("else",) or len(rest) != at + 2:
        raise Wrong("a case has no else")
    return [*made, (" ELSE ", None), *cell(rest[at + 1]), (" END", None)]


def cond(tree, rank=0):
    """Returns a condition as it reads, in pieces."""
    name = tree[0] if isinstance(tree, tuple) else tree
    rest = tree[1:] if isinstance(tree, tuple) else ()
    if name == "true" and not rest:
        return [("TRUE", None)]
    if name in COMPARISONS and len(rest) == 2:
        return [*cell(rest[0], 1), (f" {COMPARISONS[name]} ", None), *cell(rest[1], 1)]
    if name == "isnull" and len(rest) == 1:
        return [*cell(rest[0], 1), (" IS NULL", None)]
    if name in ("and", "or") and len(rest) == 2:
        level = ("or", "and").index(name) + 1
        operands, _ = chain(tree, [name])
        made = cond(operands[0], level)
        for it in operands[1:]:
            made += [(f" {name.upper()} ", None), *cond(it, level + 1)]
        return bracketed(made) if level < rank else made
    if name == "not" and len(rest) == 1:
        return [("NOT ", None), *bracketed(cond(rest[0]))]
    if name in ("some", "every") and len(rest) == 2:
        return [(f"{name.upper()} ", None), (f"q{rest[0]}", rest[0]), (": ", None), *bracketed(cond(rest[1]))]
    raise Wrong(f"there is no condition {name}")


def wrapped(pieces, width, most):
    """Returns pieces as lines of at most so many places, and at most so many lines."""
    lines, used = [[]], 0
    for text, quant in pieces:
        while text:
            # (a break comes before a piece, or within one that is longer than a line)
            if lines[-1] and used + columns(text.rstrip(" ")) > width:
                lines.append([("  ", None)])
                used, text = 2, text.lstrip(" ")
            part, room = "", width - used
            for it in text:
                if columns(part + it) > max(room, 4):
                    break
                part += it
            part = text if not part or columns(text.rstrip(" ")) <= room else part
            lines[-1].append((part, quant))
            used, text = used + columns(part), text[len(part):]
    return lines if len(lines) <= most else [*lines[: most - 1], [("  ..", None)]]
