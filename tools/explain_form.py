"""The form of what `qgm explain` prints, held against docs/program.md, docs/graph/text.md and docs/graph/well-formed.md."""
import functools

import explain_text

COMPARED = ("eq", "ne", "lt", "le", "gt", "ge", "same", "like")


def parts(tree):
    """Yields an expression or a condition, and each that stands in it."""
    if isinstance(tree, tuple):
        yield tree
        for it in tree[1:]:
            yield from parts(it)


# (most terms of a graph are those of the graph before)
@functools.lru_cache(maxsize=4096)
def names_in(tree):
    """Returns what an expression or a condition names: words, numbers of quantifiers, and columns or None."""
    return frozenset((it[0], int(it[1]), int(it[2]) if it[0] == "col" else None) for it in parts(tree) if it[0] in ("col", "scalar", "some", "every"))


def named(tree):
    """Returns the numbers of the quantifiers that an expression or a condition names."""
    return {it for _, it, _ in names_in(tree)}


@functools.lru_cache(maxsize=4096)
def fault_of_words(tree, is_cond):
    """Returns what is wrong with the words of an expression or a condition, or None."""
    try:
        (explain_text.cond if is_cond else explain_text.cell)(tree)
    except explain_text.Wrong as why:
        return str(why)
    return None


def terms(box):
    """Returns the conditions and cells of a box."""
    return box.conds + [cell for _, cell in box.head if cell is not None]


class Graph:
    """A graph that is printed, with what of it is looked up."""

    def __init__(self, step):
        self.step = step
        # of each quantifier its kind, the box under it and its owner
        self.quants = {number: (kind, over, box) for box in step.boxes for number, kind, over in box.quants}
        self.over = {box.number: [] for box in step.boxes}
        for number, (_, over, _) in self.quants.items():
            self.over[over].append(number)
        self.order = self.from_the_root()
        self.names = {box.number: set().union(*map(named, terms(box))) for box in step.boxes}
        self.free, self.seen = {}, {}

    def from_the_root(self):
        """Returns the boxes, each behind all that range over it; fewer where they go in a circle."""
        left, order = {it: len(over) for it, over in self.over.items()}, []
        ready = [it for it in left if not left[it]]
        while ready:
            box = self.step.box(ready.pop())
            order.append(box)
            for _, _, over in box.quants:
                left[over] -= 1
                if not left[over]:
                    ready.append(over)
        return order

    def look(self):
        """Finds what is free in each box, and what each box sees."""
        for box in self.order[::-1]:
            found = set(self.names[box.number]).union(*(self.free[over] for _, _, over in box.quants))
            self.free[box.number] = found - {it for it, _, _ in box.quants}
        for box in self.order:
            self.seen[box.number] = set().union(*(self.shown(it) | self.seen[self.quants[it][2].number] for it in self.over[box.number]))

    def shown(self, quant):
        """Returns the quantifiers that the owner of a quantifier shows to the box under it."""
        kind, _, owner = self.quants[quant]
        its = [it for it, its, _ in owner.quants if its == "F" and (kind != "F" or it < quant)]
        return set(its) if owner.kind == "select" else set()

    def type_of(self, tree):
        """Returns the type of an expression; of a condition "yes"; None where types don't agree."""
        word, its = tree[0], [self.type_of(it) if isinstance(it, tuple) else it for it in tree[1:]]
        if word in ("int", "text"):
            return word
        if word == "null":
            return its[0]
        if word in ("col", "scalar"):
            place = int(its[1]) if word == "col" else 1
            return self.step.box(self.quants[int(its[0])][1]).head[place - 1][0]
        if word == "count-all" or word.startswith("count"):
            return "int" if None not in its else None
        if word in ("add", "sub", "mul", "div", "neg", "sum", "avg", "sum-distinct", "avg-distinct"):
            return "int" if set(its) == {"int"} else None
        if word == "cat":
            return "text" if set(its) == {"text"} else None
        if word.split("-")[0] in ("min", "max", "single"):
            return its[0]
        if word == "case":
            conditions, cells = its[:-2:2], its[1:-2:2] + its[-1:]
            return cells[0] if set(conditions) == {"yes"} and len(set(cells)) == 1 else None
        if word in COMPARED:
            return "yes" if its[0] == its[1] and its[0] in (("text",) if word == "like" else ("int", "text")) else None
        if word == "isnull":
            return "yes" if its[0] in ("int", "text") else None
        return "yes" if all(it == "yes" for it in its[word in ("some", "every"):]) else None


@functools.lru_cache(maxsize=4096)
def has_aggregate(tree):
    return any(it[0] == "count-all" or it[0].split("-")[0] in explain_text.AGGREGATES for it in parts(tree))


def walked(step):
    """Returns the numbers of boxes in the order of a walk in depth from the root."""
    order, stack, met = [], [1], set()
    while stack:
        number = stack.pop()
        if number not in met:
            met.add(number)
            order.append(number)
            stack += [over for _, _, over in step.box(number).quants][::-1]
    return order


def faults_of_step(step):
    """Yields what is wrong with the form of a graph."""
    if len(step.preamble) != 2:
        yield "there is no out or no order"
    if walked(step) != list(range(1, len(step.boxes) + 1)):
        yield "the boxes don't stand in the order of the walk"
    if [it for box in step.boxes for it, _, _ in box.quants] != list(range(1, sum(len(box.quants) for box in step.boxes) + 1)):
        yield "the quantifiers don't stand in the order of their numbers"
        return
    if len(step.names) > len(step.box(1).head):
        yield "there are more names than columns of the root"
    if any(not 1 <= int(place) <= len(step.names) or way not in ("asc", "desc") for place, way in step.order):
        yield "the order is by what is no column"
    graph = Graph(step)
    if len(graph.order) < len(step.boxes):
        yield "the boxes go in a circle"
        return
    wrong = [f"box {box.number}: {it}" for box in step.boxes for it in faults_of_names(graph, box)]
    yield from wrong
    if not wrong:
        graph.look()
        for box in step.boxes:
            yield from (f"box {box.number}: {it}" for it in [*faults_of_view(graph, box), *faults_of_types(graph, box), *faults_of_shape(graph, box)])


def faults_of_names(graph, box):
    """Yields what is wrong with the words, quantifiers and columns that stand in a box."""
    for place, tree in enumerate(terms(box)):
        why = fault_of_words(tree, place < len(box.conds))
        if why:
            yield why
            continue
        for word, number, column in names_in(tree):
            if number not in graph.quants:
                yield f"it names quantifier {number}, which isn't there"
            elif word == "col" and not 1 <= column <= len(graph.step.box(graph.quants[number][1]).head):
                yield f"it names column {column} of quantifier {number}, which isn't there"
    for number, kind, over in box.quants:
        if kind == "S" and not graph.step.box(over).head:
            yield f"quantifier {number} is of a box without a column"


def faults_of_view(graph, box):
    """Yields what is named out of view (I6), and which box is open or shared as it can't be (I7)."""
    own = {it for it, _, _ in box.quants}
    beyond = graph.names[box.number] - own - graph.seen[box.number]
    if beyond:
        yield f"it names quantifiers out of view: {sorted(beyond)}"
    free = graph.free[box.number]
    if box.is_open != bool(free):
        yield f"it is {'open' if box.is_open else 'closed'}, and free in it are {sorted(free)}"
    many = len(graph.over[box.number])
    if box.number == 1 and (free or many):
        yield f"it is the root, {many} quantifiers range over it, and free in it are {sorted(free)}"
    if free and many != 1:
        yield f"it is open, and {many} quantifiers range over it"


def faults_of_types(graph, box):
    """Yields which cells and conditions are of another type (I5)."""
    for place, (kind, cell) in enumerate(box.head):
        if cell is not None and graph.type_of(cell) != kind:
            yield f"column {place + 1} is of type {kind}, and its cell is of type {graph.type_of(cell)}"
    for place, it in enumerate(box.conds):
        if graph.type_of(it) != "yes":
            yield f"in condition {place + 1} types don't agree"
    if box.kind == "setop":
        for _, _, over in box.quants:
            if [kind for kind, _ in graph.step.box(over).head] != [kind for kind, _ in box.head]:
                yield f"its columns are of other types than those of box {over}"


def faults_of_shape(graph, box):
    """Yields how a box hasn't the shape of its kind and role (I8, I9)."""
    lines = {it.split(" ")[0] for it in box.text}
    if ("where" if box.kind == "outerjoin" else "on") in lines:
        yield "its conditions are `on` and it is no outer join, or are `where` and it is one"
    if any((cell is None) != (box.kind in ("base", "setop")) for _, cell in box.head):
        yield "it has a column with a cell that it can't have, or without one"
    elif not has_shape_of_kind(box):
        yield f"it hasn't the shape of its kind, {box.kind}"
    over_it = [graph.quants[it][0] for it in graph.over[box.number]]
    if box.words[:1] == ("permit",) and (box.number == 1 or {"F", "S"} & set(over_it)):
        yield f"it is PERMIT, and quantifiers of kinds {over_it} range over it"
    if box.kind == "select" and box.words[1] != "plain" and not has_shape_of_role(graph, box):
        yield f"it hasn't the shape of its role, {box.words[1]}"
    has_others = {kind for _, kind, _ in box.quants} - {"F"} or any(word != "col" for tree in terms(box) for word, _, _ in names_in(tree))
    for tree in terms(box) if has_others else ():
        yield from faults_of_uses(graph, box, tree, ())


def has_shape_of_kind(box):
    kinds, cells, own = [kind for _, kind, _ in box.quants], [cell for _, cell in box.head], {it for it, _, _ in box.quants}
    if box.kind == "base":
        return not kinds and not box.conds
    if box.kind == "setop":
        return kinds == ["F", "F"] and not box.conds and bool(cells)
    if box.kind == "group":
        return kinds == ["F"] and not box.conds and has_shape_of_group(box, cells)
    if any(map(has_aggregate, terms(box))):
        return False
    if box.kind == "outerjoin":
        return kinds == ["F", "F"] and all(it[0] == "col" and int(it[1]) in own for it in cells)
    return box.words[0] in ("enforce", "preserve", "permit")


def has_shape_of_group(box, cells):
    keys, rest = cells[: int(box.words[0])], cells[int(box.words[0]):]
    own = {box.quants[0][0]}
    return len(keys) == int(box.words[0]) and not any(map(has_aggregate, keys)) and all(has_aggregate(it) and not any(map(has_aggregate, it[1:])) for it in rest) and all(named(it) <= own for it in cells)


def has_shape_of_role(graph, box):
    kinds = [kind for _, kind, _ in box.quants]
    if box.words[1] == "magic":
        return box.words[0] == "enforce" and set(kinds) <= {"F"}
    if box.words[1] != "fed" or box.number == 1 or box.words[0] != "preserve" or box.conds or kinds != ["F", "F"]:
        return False
    first, second = (graph.step.box(over) for _, _, over in box.quants)
    columns = [("col", str(quant), str(place + 1)) for quant, _, over in box.quants for place in range(len(graph.step.box(over).head))]
    return first.words[1:] == ("magic",) and graph.free[second.number] == {box.quants[0][0]} and [cell for _, cell in box.head] == columns


def faults_of_uses(graph, box, tree, opened):
    """Yields how quantifiers of a box stand in a cell or a condition where they can't; `opened` are those of a some or every round it."""
    if not isinstance(tree, tuple):
        return
    word = tree[0]
    if word in ("scalar", "some", "every"):
        kind, _, owner = graph.quants[int(tree[1])]
        if owner is not box or kind != {"scalar": "S", "some": "E", "every": "A"}[word]:
            yield f"a {word} is of quantifier {tree[1]}, of kind {kind} of box {owner.number}"
        opened = (*opened, int(tree[1]))
    elif word == "col":
        kind, _, owner = graph.quants[int(tree[1])]
        if owner is box and kind != "F" and int(tree[1]) not in opened:
            yield f"a column of quantifier {tree[1]}, of kind {kind}, stands in no some or every of it"
    for it in tree[1:]:
        yield from faults_of_uses(graph, box, it, opened)


def faults_of_firing(step, plan):
    """Yields what is wrong with a firing: its rule is of no class of the plan, or its place isn't there."""
    rule, at, *numbers = step.firing
    classes = explain_text.RULES[rule][0].split(" and ") if rule in explain_text.RULES else []
    if not any(it in plan["classes"] for it in classes):
        yield f"rule {rule} isn't of the plan's classes"
    box = step.box(at)
    most = {"quantifier": len(box.quants), "condition": len(box.conds), "column": len(box.head), None: 0}
    for what, number in zip(explain_text.PLACES.get(rule, (None, None)), numbers):
        if not (what is not None) <= number <= most[what]:
            yield f"rule {rule} fires at {what or 'number'} {number} of box {at}, which has {most[what]}"


def faults_of(text, plan):
    """Returns what is wrong with a text of explain under a plan, the answer behind it, and the rules that fired."""
    try:
        steps, firings, evals, answer = explain_text.read(text)
    except (explain_text.Wrong, ValueError, IndexError) as why:
        return [f"it can't be read: {why}"], "", []
    faults = [f"GRAPH {at}: {it}" for at, step in enumerate(steps) for it in faults_of_step(step)]
    faults += [f"FIRE {at + 1}: {it}" for at, step in enumerate(steps[:-1]) for it in faults_of_firing(step, plan)]
    if firings > plan["budget"]:
        faults.append(f"there are {firings} firings, and the budget is {plan['budget']}")
    if not any(it.is_open for it in steps[-1].boxes) and evals != len(steps[-1].boxes):
        faults.append(f"EVALS is {evals}, and the last graph has {len(steps[-1].boxes)} boxes, all closed")
    if evals < 1:
        faults.append("EVALS is 0")
    return faults, answer, [step.firing[0] for step in steps[:-1]]
