"""Draws small plans that type, and changes of them that mostly don't, from a seed.

Cells are drawn from few values, so that keys meet, and the ends of int are among them.
"""
import copy
import random

from reading import EXCHANGES, FUNCTIONS, JOINS, KINDS, SOURCES, is_many, kinds_of, pre_order

CELLS = {
    "bool": (None, True, False, True),
    "int": (None, 0, 1, 2, 2, 3, -1, 5, 2**63 - 1, -2**63),
    "text": (None, "", "a", "ab", "b", "é", "abcdefghijkl", "abcdefghijklm"),
}
WRONG = (None, True, 7, -1, 65536, 1.5, 2**63, "x", "int", [], {}, [[]], [None], [0, "asc"])


class Drawer:
    """Draws nodes as a plan file has them, without their ids."""

    def __init__(self, seed: int):
        self.draw = random.Random(seed)

    # ---- expressions

    def expr(self, kinds, kind: str, depth: int) -> list:
        """An expression of this kind over columns of these kinds."""
        columns = [place for place, found in enumerate(kinds) if found == kind]
        if depth == 0 or self.draw.random() < 0.3:
            if columns and self.draw.random() < 0.9:
                return ["col", self.draw.choice(columns)]
            value = self.draw.choice(CELLS[kind])
            return ["null", kind] if value is None else ["lit", value]
        name = self.draw.choice([name for name, (_, gives) in FUNCTIONS.items() if gives in (kind, "a")])
        shared = kind if FUNCTIONS[name][1] == "a" else self.draw.choice(kinds)
        wanted = [{"a": shared, "?": self.draw.choice(kinds)}.get(word, word) for word in FUNCTIONS[name][0].split()]
        return [name, *(self.expr(kinds, word, depth - 1) for word in wanted)]

    # ---- nodes

    def values(self) -> dict:
        kinds = [self.draw.choice(KINDS) for _ in range(self.draw.randint(1, 3))]
        rows = [[self.draw.choice(CELLS[kind]) for kind in kinds] for _ in range(self.draw.choice((0, 1, 3, 4, 5, 6)))]
        node = {"node": "values", "kinds": kinds, "rows": rows}
        return {**node, "parallel": True} if self.draw.random() < 0.2 else node

    def columns(self, kinds, least: int) -> list:
        return [self.draw.randrange(len(kinds)) for _ in range(self.draw.randint(least, 2))]

    def sort_keys(self, kinds) -> list:
        """Keys over all columns, in any order, so that no two rows tie that differ."""
        places = self.draw.sample(range(len(kinds)), len(kinds))
        return [[place, self.draw.choice(("asc", "desc")), self.draw.choice(("first", "last"))] for place in places]

    def aggregates(self, kinds, least: int) -> list:
        found = []
        for _ in range(self.draw.randint(least, 3)):
            column = self.draw.randrange(len(kinds))
            own = {"int": ("sum",), "bool": ("bool_and", "bool_or"), "text": ()}[kinds[column]]
            name = self.draw.choice(("count", "min", "max", *own))
            found.append(["count"] if self.draw.random() < 0.2 else [name, column])
        return found

    def gathered(self, node: dict) -> dict:
        return {"node": "exchange", "kind": "gather", "keys": [], "source": node} if is_many(node) else node

    def two_steps(self, source: dict, kinds) -> dict:
        keys = self.columns(kinds, 1)
        aggregates = self.aggregates(kinds, 1)
        partial = {"node": "aggregation", "step": "partial", "keys": keys, "aggregates": aggregates, "source": source}
        finals, place = [], len(keys)
        for aggregate in aggregates:
            finals.append([aggregate[0], place])
            place += 2 if aggregate[0] == "sum" else 1
        by = self.draw.sample(range(len(keys)), self.draw.randint(1, len(keys)))
        dealt = {"node": "exchange", "kind": "hash", "keys": by, "source": partial}
        return {"node": "aggregation", "step": "final", "keys": list(range(len(keys))), "aggregates": finals, "source": dealt}

    def join(self, left: dict, right: dict):
        """A join on one or two pairs of columns of one kind, or nothing where there is no pair."""
        pairs = [(a, b) for a, one in enumerate(kinds_of(left)) for b, other in enumerate(kinds_of(right)) if one == other]
        if not pairs:
            return None
        on = [self.draw.choice(pairs) for _ in range(self.draw.choice((1, 1, 2)))]
        return {"node": "join", "kind": self.draw.choice(JOINS), "left_keys": [a for a, _ in on],
                "right_keys": [b for _, b in on], "left": self.gathered(left), "right": right}

    def over(self, word: str, source: dict) -> dict:
        kinds = kinds_of(source)
        if word == "filter":
            return {"node": word, "predicate": self.expr(kinds, "bool", 3), "source": source}
        if word == "project":
            exprs = [self.expr(kinds, self.draw.choice((*kinds, *KINDS)), 3) for _ in range(self.draw.randint(1, 3))]
            return {"node": word, "exprs": exprs, "source": source}
        if word == "two steps":
            return self.two_steps(source, kinds)
        if word == "exchange":
            keys = self.columns(kinds, 1)
            return {"node": word, "kind": "hash", "keys": keys, "source": source}
        one = self.gathered(source)
        if word == "aggregation":
            keys = self.columns(kinds, 0)
            aggregates = self.aggregates(kinds, 0 if keys else 1)
            return {"node": word, "step": "single", "keys": keys, "aggregates": aggregates, "source": one}
        if word == "order":
            return {"node": word, "keys": self.sort_keys(kinds), "source": one}
        if word == "topn":
            return {"node": word, "count": self.draw.randint(0, 4), "keys": self.sort_keys(kinds), "source": one}
        return {"node": word, "offset": self.draw.randint(0, 3), "count": self.draw.randint(0, 4), "source": one}

    def node(self, depth: int) -> dict:
        if depth == 0:
            return self.values()
        source = self.node(depth - 1)
        word = self.draw.choice(("filter", "filter", "project", "project", "join", "join", "join", "aggregation", "aggregation",
                                 "two steps", "order", "topn", "limit", "exchange"))
        if word != "join":
            return self.over(word, source)
        return self.join(source, self.node(self.draw.randrange(depth))) or self.over("order", source)

    def plan(self) -> dict:
        """A plan's root. Half of the plans have an order at their top."""
        root = self.gathered(self.node(self.draw.randint(1, 4)))
        if self.draw.random() < 0.5:
            root = self.over("order", root)
        return self.numbered(root)

    def numbered(self, root: dict) -> dict:
        nodes = pre_order(root)
        for node, number in zip(nodes, self.draw.sample(range(2 * len(nodes)), len(nodes))):
            node["id"] = number
        return root

    # ---- changes

    def lists_in(self, value) -> list:
        """All lists that aren't empty in a field's value, itself too."""
        if not isinstance(value, list) or not value:
            return []
        return [value, *(found for item in value for found in self.lists_in(item))]

    def changed(self, root: dict) -> dict:
        """The plan with one to three changes."""
        root = copy.deepcopy(root)
        for _ in range(self.draw.choice((1, 1, 1, 2, 3))):
            if not root:
                break
            change = self.draw.choice((self.lose, self.gain, self.spoil, self.spoil, self.spoil_item, self.spoil_item, self.lengthen,
                                       self.shift, self.shift, self.shift, self.renumber, self.deal, self.deal))
            change(self.draw.choice(pre_order_of(root)))
        return root

    def lose(self, node: dict) -> None:
        node.pop(self.draw.choice(list(node)))

    def wrong(self):
        return copy.deepcopy(self.draw.choice(WRONG))

    def gain(self, node: dict) -> None:
        node[self.draw.choice(("more", "source", "parallel"))] = self.wrong()

    def spoil(self, node: dict) -> None:
        node[self.draw.choice(list(node))] = self.wrong()

    def own_lists(self, node: dict) -> list:
        return [found for name in node if name not in ("kinds",) for found in self.lists_in(node[name])]

    def spoil_item(self, node: dict) -> None:
        lists = self.own_lists(node)
        if lists:
            chosen = self.draw.choice(lists)
            chosen[self.draw.randrange(len(chosen))] = self.wrong()

    def lengthen(self, node: dict) -> None:
        """An item more or less in some list: an argument, a key, a cell."""
        lists = self.own_lists(node)
        if lists:
            chosen = self.draw.choice(lists)
            if self.draw.random() < 0.5:
                chosen.pop()
            else:
                chosen.append(copy.deepcopy(chosen[-1]))

    def shift(self, node: dict) -> None:
        """Another column somewhere, or another function."""
        lists = [found for found in self.own_lists(node) if isinstance(found[0], (str, int))]
        if lists:
            chosen = self.draw.choice(lists)
            place = self.draw.randrange(len(chosen))
            if type(chosen[place]) is int:
                chosen[place] = self.draw.choice((0, 1, 2, 3, 9))
            elif isinstance(chosen[place], str) and chosen[place] in FUNCTIONS:
                chosen[place] = self.draw.choice(list(FUNCTIONS))

    def renumber(self, node: dict) -> None:
        node["id"] = self.draw.randint(0, 4)

    def deal(self, node: dict) -> None:
        """Rows in many lists where they came in one, or a gather that is a hash."""
        if node.get("node") == "values":
            node["parallel"] = True
        elif node.get("node") == "exchange":
            node["kind"] = self.draw.choice(EXCHANGES)
            node["keys"] = [0] if node["kind"] == "hash" else []


def pre_order_of(root: dict) -> list:
    """The nodes of a plan that may be spoilt, as far as they are objects with some field."""
    below = [root[name] for name in SOURCES if isinstance(root.get(name), dict) and root[name]]
    return [root, *(found for source in below for found in pre_order_of(source))]
