"""Random schemas, tables and valid queries over them, by the grammar of docs/language, each from a seed.

A query is made from the outside in, with the scopes that each place of it sees, so that every name that is written
means one column there and types fit. It is weighted to nest: subqueries, derived tables and set operations within one
another, most of them correlated.
"""
import math
import random
import re

INT, TEXT = "int", "text"
# How tightly the text of an expression binds, and that of a condition.
PRIMARY, FACTOR, TERM, SUM = range(4)
PREDICATE, NEGATION, CONJUNCTION, DISJUNCTION = range(4)
INTS = ["0", "1", "1", "1", "2", "2", "3", "-1"]
TEXTS = ["", "a", "a", "b", "ab", "%", "\\N"]
COMPARISONS = ["=", "=", "=", "<>", "<>", "<", "<=", "<=", ">", ">=", ">="]
COLUMN_NAMES = ["A", "B", "C", "D"]
RANGE_NAMES = ["R", "S", "T", "U", "V", "W", "X", "Y"]


# At most about so many combinations of rows of a block, by how many blocks stand round it.
MOST_ROWS = [300, 60, 16, 8]


class Range:
    """A table of a FROM: its name, of each column the name (or None), the type, and whether it may be named, and about how many rows."""

    def __init__(self, name, columns, rows):
        self.name, self.columns, self.rows = name, columns, rows

    def barred(self, keys):
        """Returns the range as a grouped block's list sees it: only grouping columns may be named."""
        return Range(self.name, [(name, kind, (self.name, place) in keys) for place, (name, kind, _) in enumerate(self.columns)], self.rows)


class Joined(list):
    """The tables that an ON may name, and the list of all of its FROM."""

    def __init__(self, own, ranges):
        super().__init__(own)
        self.ranges = ranges


class Case:
    """A schema's text, the files of its tables, a query, and whether SQLite gives it the same meaning."""

    def __init__(self, schema, tables, query, for_sqlite):
        self.schema, self.tables, self.query, self.for_sqlite = schema, tables, query, for_sqlite


def enclosed(text, level, most):
    return text if level <= most else f"({text})"


def quoted(text):
    return "'" + text.replace("'", "''") + "'"


class Maker:
    """Draws the parts of a case."""

    def __init__(self, seed):
        self.draw = random.Random(seed)
        self.relations = []  # each with its columns, a name and a type, and about how many rows
        self.rows = 0  # about how many the last query has
        # whether what SQLite lacks, or gives another meaning, is left out
        self.for_sqlite = self.chance(0.35)
        self.size = 0
        # outer tables that are named within an ON: each with the list of the FROM
        self.outer_names = []

    def chance(self, part):
        return self.draw.random() < part

    def kind(self):
        return INT if self.chance(0.75) else TEXT

    # Schemas and tables

    def table(self, name):
        """Returns the statement of a table, its columns and its records."""
        columns = [(it, self.kind()) for it in COLUMN_NAMES[: self.draw.choice([1, 2, 2, 3, 3, 4])]]
        keys, not_null, parts, is_primary = [], set(), [], False
        for place, (column, kind) in enumerate(columns):
            part = f"{column} " + (self.draw.choice(["INTEGER", "INT"]) if kind == INT else "VARCHAR(4)")
            if place == 0 and self.chance(0.35):
                part += " PRIMARY KEY"
                is_primary = True
                keys.append([place])
                not_null.add(place)
            elif self.chance(0.12):
                part += " UNIQUE"
                keys.append([place])
            if place not in not_null and self.chance(0.25):
                part += " NOT NULL"
                not_null.add(place)
            parts.append(part)
        if len(columns) > 1 and self.chance(0.2):
            places = self.draw.sample(range(len(columns)), 2)
            word = "UNIQUE" if is_primary or self.chance(0.5) else "PRIMARY KEY"
            parts.append(f"{word} ({', '.join(columns[it][0] for it in places)})")
            keys.append(places)
            not_null |= set(places) if word == "PRIMARY KEY" else set()
        rows, seen = [], [set() for _ in keys]
        for _ in range(self.draw.choice([0, 1, 2, 3, 4, 5, 6, 6, 6])):
            row = [self.cell(kind, place in not_null) for place, (_, kind) in enumerate(columns)]
            found = [tuple(row[it] for it in key) for key in keys]
            # (a key with a null in it counts for nothing; none is here in a primary key)
            if any(None not in it and it in before for it, before in zip(found, seen)):
                continue
            for it, before in zip(found, seen):
                before.add(it)
            rows.append(row)
        return f"CREATE TABLE {name} ({', '.join(parts)});", columns, rows

    def cell(self, kind, is_full):
        if not is_full and self.chance(0.15):
            return None
        if kind == TEXT:
            return self.draw.choice(TEXTS)
        return int(self.draw.choice(INTS)) if not self.chance(0.02) else self.draw.choice([2**63 - 1, -(2**63)])

    def case(self):
        """Returns a case."""
        statements, tables = [], {}
        for name in ["T", "U", "E"][: self.draw.choice([1, 2, 2, 3])]:
            statement, columns, rows = self.table(name)
            statements.append(statement)
            tables[name] = (columns, rows)
            self.relations.append((name, columns, len(rows) or 1))
        for number in range(self.draw.choice([0, 0, 1, 1, 2, 3])):
            name = f"V{number}"
            kinds = [self.kind() for _ in range(self.draw.choice([1, 1, 2, 3]))]
            self.size = 0
            query, _ = self.query([], self.draw.choice([1, 1, 2]), kinds)
            names = self.draw.sample(COLUMN_NAMES, len(kinds))
            statements.append(f"CREATE VIEW {name} ({', '.join(names)}) AS {query};")
            self.relations.append((name, list(zip(names, kinds)), self.rows))
        self.size = 0
        depth = self.draw.choice([1, 2, 2, 3, 3, 4])
        query, columns = self.query([], depth, [self.kind() for _ in range(self.draw.choice([1, 1, 2, 2, 3]))])
        order = ""
        if self.chance(0.2):
            order = " ORDER BY " + ", ".join(f"{self.draw.randrange(len(columns)) + 1}{self.draw.choice(['', ' ASC', ' DESC'])}" for _ in range(self.draw.choice([1, 1, 2])))
        # (in an ON SQLite sees the other tables of the FROM too, before those of outer blocks)
        is_hidden = any(it.name == name for ranges, name in self.outer_names for it in ranges)
        return Case("\n".join(statements), tables, query + order, self.for_sqlite and not is_hidden)

    # Queries

    def query(self, scopes, depth, kinds, is_narrow=False):
        """Returns the text of a query with columns of these types, and their names."""
        self.size += 1
        if depth > 0 and self.size < 14 and self.chance(0.22):
            words = ["UNION", "UNION ALL", "UNION", "EXCEPT", "INTERSECT"] + ([] if self.for_sqlite else ["EXCEPT ALL", "INTERSECT ALL"])
            # (SQLite has all operations at one level, and takes no brackets round an operand)
            made = self.block if self.for_sqlite else self.query
            left, names = made(scopes, depth - 1, kinds)
            rows = self.rows
            right, _ = made(scopes, depth - 1, kinds)
            self.rows += rows
            return f"{self.operand(left)} {self.draw.choice(words)} {self.operand(right)}", names
        return self.block(scopes, depth, kinds, is_narrow)

    def is_combined(self, text):
        """Tells whether a query is a set operation outside of all brackets."""
        level, at = 0, 0
        for word in text.replace("(", " ( ").replace(")", " ) ").split():
            level += (word == "(") - (word == ")")
            at += level == 0 and word in ("UNION", "EXCEPT", "INTERSECT")
        return at > 0

    def operand(self, text):
        """Returns a query as an operand of a set operation: one that is such an operation itself mostly in brackets."""
        return f"({text})" if self.is_combined(text) and self.chance(0.7) else text

    def block(self, scopes, depth, kinds, is_narrow=False):
        """Returns the text of a SELECT, and the names of its columns."""
        ranges, tables = [], []
        for _ in range(1 if is_narrow or depth <= 0 else self.draw.choice([1, 1, 1, 2, 2, 3])):
            if not ranges or self.has_room(scopes, ranges):
                tables.append(self.table_ref(scopes, depth - 1, ranges)[0])
        frame = [ranges] + scopes
        rows = self.product(ranges)
        text = f" FROM {', '.join(tables)}"
        if self.chance(0.65 if depth > 0 else 0.4):
            text += f" WHERE {self.condition(frame, depth, None)[0]}"
        own, argument, needs_aggregate = frame, None, False
        if self.chance(0.3):
            keys = self.grouping(ranges)
            if keys:
                text += f" GROUP BY {', '.join(it[1] for it in keys)}"
            own = [[it.barred({key[0] for key in keys}) for it in ranges]] + scopes
            argument = ranges
            has_having = self.chance(0.35)
            if has_having:
                text += f" HAVING {self.condition(own, depth, argument, 1)[0]}"
            # (without keys and HAVING it is grouped by the aggregates that its list has)
            needs_aggregate = not keys and not has_having
        word = "DISTINCT " if self.chance(0.3) else "ALL " if self.chance(0.03) else ""
        star = self.star(ranges, kinds) if not argument and self.chance(0.3) else None
        self.rows = rows
        if star:
            return f"SELECT {word}{star[0]}{text}", star[1]
        items, names = [], []
        for kind in kinds:
            item = self.aggregate(kind, argument) if needs_aggregate and not items else self.item(own, depth, kind, argument)
            name = self.lone_name(item)
            if self.chance(0.3 if name else 0.8):
                name = self.draw.choice(COLUMN_NAMES)
                item += self.draw.choice([" AS ", " "]) + name
            items.append(item)
            names.append(name)
        self.rows = rows
        return f"SELECT {word}{', '.join(items)}{text}", names

    def product(self, ranges):
        return math.prod(it.rows for it in ranges)

    def has_room(self, scopes, ranges, rows=2):
        """Tells whether a range of so many rows more may stand in a FROM."""
        return self.product(ranges) * rows <= MOST_ROWS[min(len(scopes), len(MOST_ROWS) - 1)]

    def lone_name(self, item):
        """Returns the name that an expression without an alias gives its column: that of a lone column."""
        found = re.fullmatch(r"(?:[A-Z]\.)?([A-D])", item)
        return found[1] if found else None

    def star(self, ranges, kinds):
        """Returns a star whose columns have these types, with their names."""
        columns = [it for part in ranges for it in part.columns]
        if [it[1] for it in columns] == kinds:
            return "*", [it[0] for it in columns]
        for part in ranges:
            if [it[1] for it in part.columns] == kinds:
                return f"{part.name}.*", [it[0] for it in part.columns]
        return None

    def item(self, scopes, depth, kind, argument):
        if self.chance(0.55):
            column = self.column(scopes, kind)
            if column:
                return column
        return self.expression(scopes, depth, kind, argument, 2)[0]

    def grouping(self, ranges):
        """Returns grouping columns: each with its range and place, and its text."""
        found = []
        for part in ranges:
            for place, (name, _, _) in enumerate(part.columns):
                if name and sum(it[0] == name for it in part.columns) == 1:
                    found.append(((part.name, place), f"{part.name}.{name}"))
        return self.draw.sample(found, min(len(found), self.draw.choice([0, 1, 1, 1, 2])))

    # FROM

    def range_name(self, ranges):
        free = [it for it in RANGE_NAMES if all(it != part.name for part in ranges)]
        return self.draw.choice(free)

    def primary_table(self, scopes, depth, ranges):
        name = self.range_name(ranges)
        made = self.derived_table(scopes, depth, ranges, name) if depth > 0 and self.size < 14 and self.chance(0.3) else None
        if not made:
            # (of those that there is room for, or else the smallest)
            fit = [it for it in self.relations if self.has_room(scopes, ranges, it[2])]
            relation, columns, rows = self.draw.choice(fit or [min(self.relations, key=lambda it: it[2])])
            text = f"{relation}{self.draw.choice([' ', ' AS '])}{name}"
            if not self.for_sqlite and self.chance(0.08):
                names = self.draw.sample(COLUMN_NAMES, len(columns))
                text += f" ({', '.join(names)})"
                columns = [(name, kind) for name, (_, kind) in zip(names, columns)]
            made = text, columns, rows
        text, columns, rows = made
        ranges.append(Range(name, [(it, kind, True) for it, kind in columns], rows))
        return text, ranges[-1:]

    def derived_table(self, scopes, depth, ranges, name):
        """Returns the text of a subquery in FROM, its columns and rows; None where there is no room for it."""
        kinds = [self.kind() for _ in range(self.draw.choice([1, 1, 2, 3]))]
        query, names = self.query(scopes, depth - 1, kinds)
        rows = self.rows
        if not self.has_room(scopes, ranges, rows):
            return None
        text = f"({query}){self.draw.choice([' ', ' AS '])}{name}"
        if not self.for_sqlite and self.chance(0.6):
            names = self.draw.sample(COLUMN_NAMES, len(kinds))
            text += f" ({', '.join(names)})"
        return text, list(zip(names, kinds)), rows

    def table_ref(self, scopes, depth, ranges):
        text, own = self.primary_table(scopes, depth, ranges)
        while len(ranges) < 4 and self.has_room(scopes, ranges) and self.chance(0.28):
            if not self.for_sqlite and self.chance(0.12):
                more, other = self.primary_table(scopes, depth, ranges)
                last, third = self.primary_table(scopes, depth, ranges)
                condition = self.condition([Joined(other + third, ranges)] + scopes, 0, None, 1)[0]
                more, other = f"({more} JOIN {last} ON {condition})", other + third
            else:
                more, other = self.primary_table(scopes, depth, ranges)
            own = own + other
            word = self.draw.choice(["JOIN", "INNER JOIN", "LEFT JOIN", "LEFT JOIN", "LEFT OUTER JOIN", "CROSS JOIN"])
            text += f" {word} {more}"
            if word != "CROSS JOIN":
                # (no subquery stands in an ON that is of a LEFT JOIN)
                can_nest = word in ("JOIN", "INNER JOIN") and self.chance(0.2)
                text += f" ON {self.condition([Joined(own, ranges)] + scopes, depth if can_nest else 0, None)[0]}"
        return text, own

    # (names)

    def column(self, scopes, kind):
        """Returns a column of this type as it may be named here, or None."""
        found = []
        for level, frame in enumerate(scopes):
            for part in frame:
                for name, its, is_free in part.columns:
                    if its != kind or not is_free or not name:
                        continue
                    if sum(it[0] == name for it in part.columns) == 1 and not any(it.name == part.name for inner in scopes[:level] for it in inner):
                        found.append((level, f"{part.name}.{name}"))
                    named = [it for other in frame for it in other.columns if it[0] == name]
                    # (where the name is of an outer block, SQLite takes an alias of the inner block's list first)
                    if len(named) == 1 and not (level and self.for_sqlite) and not any(it[0] == name for inner in scopes[:level] for other in inner for it in other.columns):
                        found.append((level, name))
        if not found:
            return None
        # (of the names many are of an outer scope, where there is one)
        outer = [it for it in found if it[0] > 0]
        inner = [it for it in found if it[0] == 0]
        level, text = self.draw.choice(outer if outer and (not inner or self.chance(0.4)) else inner)
        self.outer_names += [(it.ranges, text.split(".")[0]) for it in scopes[:level] if isinstance(it, Joined)]
        return text

    # Expressions

    def expression(self, scopes, depth, kind, argument, height):
        """Returns an expression of this type, and how tightly it binds; aggregates are of the ranges `argument`."""
        if argument and self.chance(0.4):
            return self.aggregate(kind, argument), PRIMARY
        if height <= 0 or self.chance(0.7):
            column = self.column(scopes, kind) if self.chance(0.85) else None
            return (column or self.literal(kind)), PRIMARY
        if depth > 0 and self.size < 14 and self.chance(0.3):
            return self.scalar(scopes, depth - 1, kind), PRIMARY
        return self.composed(scopes, depth, kind, argument, height - 1)

    def composed(self, scopes, depth, kind, argument, height):
        def part(its=kind):
            return self.expression(scopes, depth, its, argument, height)

        shape = self.draw.choice(["sum", "sum", "product", "sign", "case", "simple", "coalesce", "nullif", "cast"])
        if shape == "case":
            # (one result at least isn't NULL)
            arms = f" WHEN {self.comparison(scopes, depth, argument)} THEN {self.result(part)}" if self.chance(0.3) else ""
            return f"CASE{arms} WHEN {self.comparison(scopes, depth, argument)} THEN {part()[0]}" + (f" ELSE {self.result(part)}" if self.chance(0.6) else "") + " END", PRIMARY
        if shape == "simple":
            its = self.kind()
            return f"CASE {part(its)[0]} WHEN {part(its)[0]} THEN {part()[0]}" + (f" ELSE {self.result(part)}" if self.chance(0.6) else "") + " END", PRIMARY
        if shape == "coalesce":
            return f"COALESCE({part()[0]}, {', '.join(part()[0] for _ in range(self.draw.choice([1, 1, 2])))})", PRIMARY
        if shape == "nullif":
            return f"NULLIF({part()[0]}, {part()[0]})", PRIMARY
        if shape == "cast":
            return f"CAST(NULL AS {'INTEGER' if kind == INT else 'VARCHAR(4)'})", PRIMARY
        left, right = part(), part()
        if kind == TEXT:
            return f"{enclosed(*left, SUM)} || {enclosed(*right, TERM)}", SUM
        if shape == "sum":
            return f"{enclosed(*left, SUM)} {self.draw.choice('+-')} {enclosed(*right, TERM)}", SUM
        if shape == "product":
            return f"{enclosed(*left, TERM)} {self.draw.choice('**/')} {enclosed(*right, FACTOR)}", TERM
        return f"{self.draw.choice('-+')}{enclosed(*left, PRIMARY)}", FACTOR

    def result(self, part):
        return "NULL" if self.chance(0.2) else part()[0]

    def literal(self, kind):
        if kind == TEXT:
            return quoted(self.draw.choice(TEXTS))
        return self.draw.choice(["0", "1", "1", "2", "3"]) if not self.chance(0.01) else "9223372036854775807"

    def aggregate(self, kind, argument):
        name = self.draw.choice(["COUNT", "COUNT", "SUM", "MIN", "MAX", "SUM" if self.for_sqlite else "AVG"] if kind == INT else ["MIN", "MAX"])
        if name == "COUNT" and self.chance(0.5):
            return "COUNT(*)"
        its = kind if name != "COUNT" else self.kind()
        inner = self.expression([argument], 0, its, None, 1)[0]
        return f"{name}({'DISTINCT ' if self.chance(0.3) else ''}{inner})"

    def scalar(self, scopes, depth, kind):
        """Returns a scalar subquery; most have one row at most. (SQLite takes the first of several.)"""
        if self.for_sqlite or self.chance(0.75):
            ranges = []
            table = self.table_ref(scopes, depth, ranges)[0]
            frame = [ranges] + scopes
            text = f"(SELECT {self.aggregate(kind, ranges)} FROM {table}"
            if self.chance(0.85):
                text += f" WHERE {self.condition(frame, depth, None, 2)[0]}"
            return text + ")"
        return f"({self.query(scopes, depth, [kind], True)[0]})"

    # Conditions

    def condition(self, scopes, depth, argument, height=3):
        """Returns a condition, and how tightly it binds."""
        draw = self.draw.random() if height else 1
        if draw < 0.25:
            left, right = (self.condition(scopes, depth, argument, height - 1) for _ in range(2))
            return f"{enclosed(*left, CONJUNCTION)} AND {enclosed(*right, NEGATION)}", CONJUNCTION
        if draw < 0.35:
            left, right = (self.condition(scopes, depth, argument, height - 1) for _ in range(2))
            return f"{enclosed(*left, DISJUNCTION)} OR {enclosed(*right, CONJUNCTION)}", DISJUNCTION
        if draw < 0.45:
            return f"NOT {enclosed(*self.condition(scopes, depth, argument, height - 1), PREDICATE)}", NEGATION
        if depth > 0 and self.size < 14 and self.chance(0.55):
            return self.subquery_test(scopes, depth - 1, argument), PREDICATE
        return self.comparison(scopes, depth, argument), PREDICATE

    def comparison(self, scopes, depth, argument):
        """Returns a condition on expressions."""
        kind = self.kind()

        def part():
            return self.expression(scopes, depth if self.chance(0.3) else 0, kind, argument, 1)[0]

        draw = self.draw.random()
        left = self.column(scopes, kind)
        if draw < 0.65 and left:
            return f"{left} {self.draw.choice(COMPARISONS)} {part()}"
        if draw < 0.75:
            return f"{part()} {self.draw.choice(COMPARISONS)} {part()}"
        word = self.draw.choice(["", "", "NOT "])
        if draw < 0.8:
            return f"{part()} {word}BETWEEN {part()} AND {part()}"
        if draw < 0.88:
            items = ", ".join(part() for _ in range(self.draw.choice([1, 2, 3])))
            # (one lone subquery in brackets isn't a list)
            return f"{part()} {word}IN ({items}{', ' + self.literal(kind) if items.startswith('(') else ''})"
        if draw < 0.93 and kind == TEXT:
            return f"{part()} {word}LIKE {part()}"
        return f"{part()} IS {self.draw.choice(['NOT ', 'NOT ', ''])}NULL"

    def subquery_test(self, scopes, depth, argument):
        kind = self.kind()

        def part():
            return self.expression(scopes, 0, kind, argument, 1)[0]

        draw = self.draw.random()
        if draw < 0.4:
            kinds = [self.kind() for _ in range(self.draw.choice([1, 1, 2]))]
            return f"EXISTS ({self.query(scopes, depth, kinds)[0]})"
        if self.for_sqlite or draw < 0.75:
            return f"{part()} {self.draw.choice(['', 'NOT '])}IN ({self.query(scopes, depth, [kind])[0]})"
        return f"{part()} {self.draw.choice(COMPARISONS)} {self.draw.choice(['ANY', 'SOME', 'ALL', 'ALL'])} ({self.query(scopes, depth, [kind])[0]})"


def case_of(seed):
    """Returns the case of a seed, a number or a text."""
    return Maker(f"case {seed}").case()


def record(row):
    """Returns a row as a record of a file."""
    return ",".join("\\N" if it is None else str(it) if isinstance(it, int) else '"' + ("\\" + it if it.startswith("\\") else it) + '"' for it in row)


def file_of(columns, rows):
    """Returns the text of a table's file."""
    return "".join(f"{it}\n" for it in [",".join(name for name, _ in columns), *map(record, rows)])


def printed(row):
    """Returns a row as the program prints it. (A record of one empty field has quotes.)"""
    fields = ["\\N" if it is None else str(it) if isinstance(it, int) else "\\" + it if it.startswith("\\") else it for it in row]
    return ",".join(fields) if fields != [""] else '""'
