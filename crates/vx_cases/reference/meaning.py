"""What a plan answers: a plain reading of docs/MEANING.md, one node after another, each over all rows of its source.

Where the plan leaves something open, a case that tells one of several lawful outputs would be wrong. So the
evaluation notes what is open: whether the order of a node's rows is settled, and every fault that could be met.
"""
from itertools import groupby

from reading import columns_of, is_many, sources_of

INT_MIN, INT_MAX = -2**63, 2**63 - 1
HALF = 2**63
MOST_BYTES = 65535


class Fault(Exception):
    """The value of an expression is a fault, with this code."""


class Open(Exception):
    """The plan leaves open what is printed."""


# ---- expressions

def fitting(number: int) -> int:
    if not INT_MIN <= number <= INT_MAX:
        raise Fault("overflow")
    return number


def quotient(a: int, b: int) -> int:
    """Towards zero."""
    if b == 0:
        raise Fault("divide_by_zero")
    return abs(a) // abs(b) * (1 if (a < 0) == (b < 0) else -1)


def order_of(value):
    """A value as a thing that Python compares in the order of values; a text goes by its bytes."""
    return value.encode() if isinstance(value, str) else value


def joined_text(a: str, b: str) -> str:
    if len((a + b).encode()) > MOST_BYTES:
        raise Fault("too_long")
    return a + b


STRICT = {
    "plus": lambda a, b: fitting(a + b),
    "minus": lambda a, b: fitting(a - b),
    "multiply": lambda a, b: fitting(a * b),
    "divide": lambda a, b: fitting(quotient(a, b)),
    "modulus": lambda a, b: a - b * quotient(a, b),
    "negate": lambda a: fitting(-a),
    "eq": lambda a, b: order_of(a) == order_of(b),
    "neq": lambda a, b: order_of(a) != order_of(b),
    "lt": lambda a, b: order_of(a) < order_of(b),
    "lte": lambda a, b: order_of(a) <= order_of(b),
    "gt": lambda a, b: order_of(a) > order_of(b),
    "gte": lambda a, b: order_of(a) >= order_of(b),
    "not": lambda a: not a,
    "concat": joined_text,
    "byte_length": lambda a: len(a.encode()),
    "starts_with": lambda a, b: a.encode().startswith(b.encode()),
}


def got(e, row):
    """The value of an expression on a row, or the Fault that it has."""
    try:
        return value_of(e, row)
    except Fault as fault:
        return fault


def decided(name: str, args, row):
    """`and` and `or`: a side that decides, else the leftmost fault, else null, else the other truth."""
    decides = name == "or"
    sides = [got(e, row) for e in args]
    if any(side is decides for side in sides):
        return decides
    for side in sides:
        if isinstance(side, Fault):
            raise side
    return None if None in sides else not decides


def value_of(e, row):
    name, args = e[0], e[1:]
    if name == "col":
        return row[args[0]]
    if name == "lit":
        return args[0]
    if name == "null":
        return None
    if name in ("and", "or"):
        return decided(name, args, row)
    if name == "if":
        return value_of(args[1] if value_of(args[0], row) is True else args[2], row)
    if name == "coalesce":
        first = value_of(args[0], row)
        return value_of(args[1], row) if first is None else first
    if name == "try":
        tried = got(args[0], row)
        return None if isinstance(tried, Fault) else tried
    values = [value_of(item, row) for item in args]
    if name == "is_null":
        return values[0] is None
    return None if None in values else STRICT[name](*values)


# ---- aggregates

def present(rows, column) -> list:
    return [row[column] for row in rows if row[column] is not None]


def folded(step: str, aggregate, rows) -> tuple:
    """The cells that an aggregate gives over the rows of a group; a Fault where an int leaves 64 bits."""
    name, column = aggregate[0], aggregate[1] if len(aggregate) == 2 else None
    if name == "count":
        if step == "final":
            return (fitting(sum(present(rows, column))),)
        return (len(rows) if column is None else len(present(rows, column)),)
    if name == "sum":
        return summed(step, rows, column)
    values = present(rows, column)
    if not values:
        return (None,)
    if name in ("min", "max"):
        return ((min if name == "min" else max)(values, key=order_of),)
    return ((all if name == "bool_and" else any)(values),)


def summed(step: str, rows, column) -> tuple:
    if step == "final":
        parts = [row[column] * HALF + row[column + 1] for row in rows if None not in (row[column], row[column + 1])]
    else:
        parts = present(rows, column)
    if step == "partial":
        return divmod(sum(parts), HALF) if parts else (None, None)
    return (fitting(sum(parts)),) if parts else (None,)


def key_order(key: tuple) -> tuple:
    """A null before all values; the values of a column are of one kind."""
    return tuple((value is not None, order_of(value) if value is not None else 0) for value in key)


def grouped(rows, keys) -> list:
    """Each key with its rows, in the order of keys; without keys there is one group, also over no rows."""
    if not keys:
        return [((), rows)]
    in_order = sorted(rows, key=lambda row: key_order(key_of(row, keys)))
    return [(key, list(group)) for key, group in groupby(in_order, lambda row: key_of(row, keys))]


# ---- joins

def key_of(row, keys) -> tuple:
    return tuple(row[key] for key in keys)


def joined(node, left, right) -> list:
    kind, rows = node["kind"], []
    before, behind = (None,) * columns_of(node["left"]), (None,) * columns_of(node["right"])
    on_left = {key_of(row, node["left_keys"]) for row in left}
    on_right = [(other, key_of(other, node["right_keys"])) for other in right]
    for one in left:
        key = key_of(one, node["left_keys"])
        partners = [] if None in key else [other for other, with_key in on_right if with_key == key]
        if kind == "semi":
            rows += [one] if partners else []
        elif kind == "anti":
            rows += [] if partners else [one]
        else:
            rows += [one + other for other in partners]
            if not partners and kind in ("left", "full"):
                rows.append(one + behind)
    if kind in ("right", "full"):
        rows += [before + other for other, key in on_right if None in key or key not in on_left]
    return rows


# ---- nodes

class Told:
    """The rows of a node, and whether their order is settled: by an ORDER BY, or since they come as in the file.

    Of a partial aggregation that may be dealt out, `dealt` is its node: then its rows are one lawful list, and
    settled are the rows of the final aggregation that belongs to it.
    """

    def __init__(self, rows: list, is_settled: bool, dealt=None):
        self.rows = rows
        self.is_settled = dealt is None and (is_settled or all(row == rows[0] for row in rows))
        self.dealt = dealt


def sorted_by(rows, keys) -> list:
    for column, direction, nulls in reversed(keys):
        values = sorted((row for row in rows if row[column] is not None), key=lambda row: order_of(row[column]),
                        reverse=direction == "desc")
        absent = [row for row in rows if row[column] is None]
        rows = absent + values if nulls == "first" else values + absent
    return rows


def ties_are_equal(rows, keys) -> bool:
    """Whether neighbors that tie on all keys are the same row, so that sorting leaves nothing open."""
    columns = [key[0] for key in keys]
    return all(a == b or key_of(a, columns) != key_of(b, columns) for a, b in zip(rows, rows[1:]))


def may_stand_over(node, partial) -> bool:
    """Whether it can't be told above a node how a partial aggregation's rows were dealt out: above an exchange not
    yet, and above the final aggregation that reads just what the partial one gives."""
    if node["node"] != "aggregation":
        return node["node"] == "exchange"
    keys, place = list(range(len(partial["keys"]))), len(partial["keys"])
    aggregates = []
    for aggregate in partial["aggregates"]:
        aggregates.append([aggregate[0], place])
        place += 2 if aggregate[0] == "sum" else 1
    return (node["step"], node["keys"], node["aggregates"]) == ("final", keys, aggregates)


class Evaluation:
    """One evaluation of a plan. `faults` has each fault as (id, row, code), in the order in which they are met."""

    def __init__(self):
        self.faults = []

    def answer(self, node) -> Told:
        below = [self.answer(source) for source in sources_of(node)]
        if any(source.dealt and not may_stand_over(node, source.dealt) for source in below):
            raise Open("how rows are dealt out")
        return getattr(self, node["node"])(node, *below)

    def values(self, node) -> Told:
        return Told([tuple(row) for row in node["rows"]], not node.get("parallel", False))

    def each(self, node, exprs, source: Told) -> list:
        """Each row without a fault, with what the expressions give; of rows with a fault the first is noted."""
        rows, met = [], []
        for row in source.rows:
            results = [got(e, row) for e in exprs]
            codes = [str(result) for result in results if isinstance(result, Fault)]
            if codes:
                met.append((node["id"], row, codes[0]))
            else:
                rows.append((row, tuple(results)))
        if len(set(met)) > 1 and not source.is_settled:
            raise Open("which row's fault is met")
        self.faults += met[:1]
        return rows

    def filter(self, node, source: Told) -> Told:
        kept = [row for row, values in self.each(node, [node["predicate"]], source) if values[0] is True]
        return Told(kept, source.is_settled)

    def project(self, node, source: Told) -> Told:
        return Told([values for _, values in self.each(node, node["exprs"], source)], source.is_settled)

    def aggregation(self, node, source: Told) -> Told:
        rows, met = [], []
        for key, group in grouped(source.rows, node["keys"]):
            try:
                rows.append(key + sum((folded(node["step"], a, group) for a in node["aggregates"]), ()))
            except Fault as fault:
                met.append((node["id"], key, str(fault)))
        if len(met) > 1:
            raise Open("which group's fault is met")
        self.faults += met
        is_dealt = node["step"] == "partial" and is_many(node["source"])
        return Told(rows, False, node if is_dealt else None)

    def join(self, node, left: Told, right: Told) -> Told:
        return Told(joined(node, left.rows, right.rows), False)

    def order(self, node, source: Told) -> Told:
        rows = sorted_by(source.rows, node["keys"])
        if not ties_are_equal(rows, node["keys"]):
            raise Open("which of two rows that tie comes first")
        return Told(rows, True)

    def topn(self, node, source: Told) -> Told:
        return Told(self.order(node, source).rows[:node["count"]], True)

    def limit(self, node, source: Told) -> Told:
        rows = source.rows[node["offset"]:node["offset"] + node["count"]]
        if not source.is_settled and len(rows) not in (0, len(source.rows)):
            raise Open("which rows a limit takes")
        return Told(rows, source.is_settled)

    def exchange(self, node, source: Told) -> Told:
        return Told(source.rows, False, source.dealt)
