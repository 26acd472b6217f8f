"""From a plan file's bytes to its plan, or the first refusal: a plain reading of docs/FORMATS.md.

A plan is the JSON object of its root, as it stands in the file. The stages go over it one after another: JSON,
forms and words, limits, ids, types, widths. A row is a tuple of None, bool, int and str; texts are measured in
UTF-8.
"""
from json_text import NotJson, read

INT_MAX = 2**63 - 1
KINDS = ("bool", "int", "text")
STEPS = ("single", "partial", "final")
JOINS = ("inner", "left", "right", "full", "semi", "anti")
EXCHANGES = ("gather", "hash")
AGGREGATES = ("count", "sum", "min", "max", "bool_and", "bool_or")
DIRECTIONS = ("asc", "desc")
NULL_PLACES = ("first", "last")
# The fields of a node in the order in which they are read; `parallel` may be absent.
FIELDS = {
    "values": ("kinds", "rows", "parallel"),
    "filter": ("predicate", "source"),
    "project": ("exprs", "source"),
    "aggregation": ("step", "keys", "aggregates", "source"),
    "join": ("kind", "left_keys", "right_keys", "left", "right"),
    "order": ("keys", "source"),
    "topn": ("count", "keys", "source"),
    "limit": ("offset", "count", "source"),
    "exchange": ("kind", "keys", "source"),
}
SOURCES = ("source", "left", "right")
# What a function takes and gives; `a` stands for one kind, the same wherever it stands, and `?` for any.
FUNCTIONS = {
    **{name: ("int int", "int") for name in ("plus", "minus", "multiply", "divide", "modulus")},
    "negate": ("int", "int"),
    **{name: ("a a", "bool") for name in ("eq", "neq", "lt", "lte", "gt", "gte")},
    "not": ("bool", "bool"), "and": ("bool bool", "bool"), "or": ("bool bool", "bool"),
    "is_null": ("?", "bool"), "if": ("bool a a", "a"), "coalesce": ("a a", "a"), "try": ("a", "a"),
    "concat": ("text text", "text"), "byte_length": ("text", "int"), "starts_with": ("text text", "bool"),
}
HEADS = ("col", "lit", "null", *FUNCTIONS)


class Refused(Exception):
    """A plan is refused with this text."""


def misfit(path: str):
    raise Refused(f"P2 {path}")


# ---- forms and words

def is_whole(value, most: int) -> bool:
    return type(value) is int and 0 <= value <= most


def ask(holds: bool, path: str) -> None:
    if not holds:
        misfit(path)


def ask_word(value, words, path: str) -> None:
    ask(isinstance(value, str), path)
    if value not in words:
        raise Refused(f"P3 {path}")


def ask_list(value, path: str, is_lawful, ask_item) -> None:
    """A list's own length is asked before its items."""
    ask(isinstance(value, list) and is_lawful(len(value)), path)
    for place, item in enumerate(value):
        ask_item(item, f"{path}/{place}")


def any_length(_count: int) -> bool:
    return True


def not_empty(count: int) -> bool:
    return count > 0


def ask_small(value, path: str) -> None:
    ask(is_whole(value, 65535), path)


def ask_cell(kind: str, value, path: str) -> None:
    fitting = {"bool": bool, "int": int, "text": str}[kind]
    ask(value is None or type(value) is fitting, path)


def ask_row(kinds, value, path: str) -> None:
    ask(isinstance(value, list) and len(value) == len(kinds), path)
    for place, (kind, cell) in enumerate(zip(kinds, value)):
        ask_cell(kind, cell, f"{path}/{place}")


def ask_expr(e, path: str) -> None:
    ask(isinstance(e, list) and len(e) > 0, path)
    ask_word(e[0], HEADS, f"{path}/0")
    if e[0] in FUNCTIONS:
        for place, item in enumerate(e[1:], 1):
            ask_expr(item, f"{path}/{place}")
        return
    ask(len(e) == 2, path)
    if e[0] == "col":
        ask_small(e[1], f"{path}/1")
    elif e[0] == "lit":
        ask(type(e[1]) in (bool, int, str), f"{path}/1")
    else:
        ask_word(e[1], KINDS, f"{path}/1")


def ask_sort_key(key, path: str) -> None:
    ask(isinstance(key, list) and len(key) == 3, path)
    ask_small(key[0], f"{path}/0")
    ask_word(key[1], DIRECTIONS, f"{path}/1")
    ask_word(key[2], NULL_PLACES, f"{path}/2")


def ask_aggregate(aggregate, path: str) -> None:
    ask(isinstance(aggregate, list) and len(aggregate) in (1, 2), path)
    ask_word(aggregate[0], AGGREGATES, f"{path}/0")
    if len(aggregate) == 2:
        ask_small(aggregate[1], f"{path}/1")


def ask_keys(node, value, path: str) -> None:
    word = node["node"]
    if word in ("order", "topn"):
        ask_list(value, path, not_empty, ask_sort_key)
    elif word == "exchange":
        is_lawful = not_empty if node["kind"] == "hash" else (lambda count: count == 0)
        ask_list(value, path, is_lawful, ask_small)
    else:
        ask_list(value, path, any_length, ask_small)


def ask_field(node, name: str, path: str) -> None:
    value = node[name]
    if name == "kinds":
        ask_list(value, path, any_length, lambda kind, at: ask_word(kind, KINDS, at))
    elif name == "rows":
        ask_list(value, path, any_length, lambda row, at: ask_row(node["kinds"], row, at))
    elif name == "parallel":
        ask(isinstance(value, bool), path)
    elif name == "predicate":
        ask_expr(value, path)
    elif name == "exprs":
        ask_list(value, path, not_empty, ask_expr)
    elif name == "step":
        ask_word(value, STEPS, path)
    elif name == "aggregates":
        ask_list(value, path, any_length, ask_aggregate)
    elif name == "kind":
        ask_word(value, JOINS if node["node"] == "join" else EXCHANGES, path)
    elif name in ("left_keys", "right_keys"):
        ask_list(value, path, not_empty, ask_small)
    elif name in ("offset", "count"):
        ask(is_whole(value, INT_MAX), path)
    elif name == "keys":
        ask_keys(node, value, path)
    else:
        ask_node(value, path)


def ask_node(node, path: str) -> None:
    ask(isinstance(node, dict) and isinstance(node.get("node"), str), path)
    ask_word(node["node"], FIELDS, f"{path}/node")
    fields = FIELDS[node["node"]]
    wanted = {"node", "id", *fields}
    ask(wanted - {"parallel"} <= set(node) <= wanted, path)
    ask_small(node["id"], f"{path}/id")
    for name in fields:
        if name in node:
            ask_field(node, name, f"{path}/{name}")


# ---- limits and ids

def sources_of(node) -> list:
    return [node[name] for name in SOURCES if name in node]


def pre_order(node) -> list:
    return [node, *(below for source in sources_of(node) for below in pre_order(source))]


def exprs_of(node) -> list:
    return [node["predicate"]] if node["node"] == "filter" else node.get("exprs", [])


def columns_of(node) -> int:
    word = node["node"]
    if word == "values":
        return len(node["kinds"])
    if word == "project":
        return len(node["exprs"])
    if word == "aggregation":
        both = node["step"] == "partial"
        return len(node["keys"]) + sum(2 if both and a[0] == "sum" else 1 for a in node["aggregates"])
    if word == "join" and node["kind"] not in ("semi", "anti"):
        return columns_of(node["left"]) + columns_of(node["right"])
    return columns_of(sources_of(node)[0])


def depth_of(e) -> int:
    return 1 + max((depth_of(item) for item in e[1:]), default=0) if e[0] in FUNCTIONS else 1


def bytes_in(value) -> int:
    return len(value.encode()) if isinstance(value, str) else 0


def longest_in(e) -> int:
    if e[0] == "lit":
        return bytes_in(e[1])
    return max((longest_in(item) for item in e[1:]), default=0) if e[0] in FUNCTIONS else 0


def longest_of(node) -> int:
    cells = (bytes_in(cell) for row in node.get("rows", []) for cell in row)
    return max((*cells, *map(longest_in, exprs_of(node))), default=0)


def growth_of(node) -> int:
    word = node["node"]
    if word == "values":
        return len(node["rows"])
    if word == "join":
        left, right = growth_of(node["left"]), growth_of(node["right"])
        return left if node["kind"] in ("semi", "anti") else left * right + left + right
    return growth_of(node["source"]) + (8 if word == "aggregation" else 0)


def check_limits(root) -> None:
    nodes = pre_order(root)
    values = [node for node in nodes if node["node"] == "values"]
    limits = (
        ("nodes", len(nodes) <= 64),
        ("columns", all(1 <= columns_of(node) <= 64 for node in nodes)),
        ("rows", sum(len(node["rows"]) for node in values) <= 100_000),
        ("cells", sum(len(node["rows"]) * len(node["kinds"]) for node in values) <= 1_000_000),
        ("depth", all(depth_of(e) <= 64 for node in nodes for e in exprs_of(node))),
        ("text", all(longest_of(node) <= 65535 for node in nodes)),
        ("growth", all(growth_of(node) <= 2**62 for node in nodes)),
    )
    for name, holds in limits:
        if not holds:
            raise Refused(f"P6 {name}")


def check_ids(root) -> None:
    met = set()
    for node in pre_order(root):
        if node["id"] in met:
            raise Refused(f"P7 id={node['id']}")
        met.add(node["id"])


# ---- types

class Untyped(Exception):
    """A node doesn't type, for this cause."""


def kind_at(kinds, place: int) -> str:
    if place >= len(kinds):
        raise Untyped("T1")
    return kinds[place]


def kind_of(e, kinds) -> str:
    """The kind of an expression over columns of these kinds."""
    if e[0] == "col":
        return kind_at(kinds, e[1])
    if e[0] == "lit":
        return {bool: "bool", int: "int", str: "text"}[type(e[1])]
    if e[0] == "null":
        return e[1]
    takes, gives = FUNCTIONS[e[0]]
    takes = takes.split()
    if len(e) - 1 != len(takes):
        raise Untyped("T4")
    found = [kind_of(item, kinds) for item in e[1:]]
    for wanted, kind in zip(takes, found):
        if wanted in KINDS and wanted != kind:
            raise Untyped("T2")
    same = [kind for wanted, kind in zip(takes, found) if wanted == "a"]
    if len(set(same)) > 1:
        raise Untyped("T3")
    return same[0] if gives == "a" else gives


def kinds_of_aggregate(step: str, aggregate, kinds) -> list:
    name, column = aggregate[0], aggregate[1] if len(aggregate) == 2 else None
    if column is None:
        if name != "count" or step == "final":
            raise Untyped("T4")
        return ["int"]
    places = [column, column + 1] if (name, step) == ("sum", "final") else [column]
    read = [kind_at(kinds, place) for place in places]
    wanted = {"sum": "int", "bool_and": "bool", "bool_or": "bool"}.get(name)
    wanted = "int" if (name, step) == ("count", "final") else wanted
    if wanted and any(kind != wanted for kind in read):
        raise Untyped("T2")
    if name == "count":
        return ["int"]
    return ["int", "int"] if (name, step) == ("sum", "partial") else read[:1]


def kinds_over(node, kinds) -> list:
    word = node["node"]
    if word == "filter":
        if kind_of(node["predicate"], kinds) != "bool":
            raise Untyped("T2")
    elif word == "project":
        return [kind_of(e, kinds) for e in node["exprs"]]
    elif word == "aggregation":
        keys = [kind_at(kinds, key) for key in node["keys"]]
        return keys + [kind for a in node["aggregates"] for kind in kinds_of_aggregate(node["step"], a, kinds)]
    elif word in ("order", "topn"):
        for key in node["keys"]:
            kind_at(kinds, key[0])
    elif word == "exchange":
        for key in node["keys"]:
            kind_at(kinds, key)
    return kinds


def kinds_joined(node, left, right) -> list:
    if len(node["left_keys"]) != len(node["right_keys"]):
        raise Untyped("T4")
    on_left = [kind_at(left, key) for key in node["left_keys"]]
    on_right = [kind_at(right, key) for key in node["right_keys"]]
    if on_left != on_right:
        raise Untyped("T3")
    return left if node["kind"] in ("semi", "anti") else left + right


def kinds_of(node) -> list:
    """The kinds of a node's columns; the first node in post-order that doesn't type refuses."""
    below = [kinds_of(source) for source in sources_of(node)]
    try:
        if node["node"] == "values":
            return node["kinds"]
        return kinds_joined(node, *below) if node["node"] == "join" else kinds_over(node, *below)
    except Untyped as error:
        raise Refused(f"P4 node={node['id']} {error}") from error


# ---- widths

def is_dealt_by(source, keys) -> bool:
    """Whether a source is itself a hash exchange whose keys are all among these."""
    return source["node"] == "exchange" and source["kind"] == "hash" and set(source["keys"]) <= set(keys)


def is_many(node) -> bool:
    """Whether a node's rows come in many lists; the first in post-order that may not stand so refuses."""
    below = [is_many(source) for source in sources_of(node)]
    word = node["node"]
    if word == "values":
        return node.get("parallel", False)
    if word == "exchange":
        return node["kind"] == "hash"
    if word in ("filter", "project") or (word == "aggregation" and node["step"] == "partial"):
        return below[0]
    if word == "aggregation" and node["keys"] and is_dealt_by(node["source"], node["keys"]):
        return below[0]
    if below[0]:
        raise Refused(f"P5 node={node['id']}")
    return False


def check_widths(root) -> None:
    if is_many(root):
        raise Refused(f"P5 node={root['id']}")


# ---- all of it

def plan_of(data: bytes):
    """The root of the plan that bytes spell."""
    try:
        value = read(data)
    except NotJson as error:
        raise Refused("P1") from error
    ask(isinstance(value, dict) and set(value) == {"plan"}, "/")
    ask_node(value["plan"], "/plan")
    root = value["plan"]
    check_limits(root)
    check_ids(root)
    kinds_of(root)
    check_widths(root)
    return root
