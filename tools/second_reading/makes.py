"""Makes templates, texts that are nearly templates, and configurations, each from what a seed gives."""
import copy

from meaning import FUNCTIONS
from planning import SCHEMAS, references

VARIABLES = {
    "map": {"b": 1, "a": 2},
    "more": {"a": 5},
    "texts": ["x", "k", "x"],
    "text": "t",
    "number": -3,
    "truth": True,
    "none": None,
    "deep": {"k": [{"a": [1, None, "q"]}]},
}
# what the expressions of one configuration may name: nets whose ids aren't known before the apply
SURROUNDINGS = {
    "variable": {name: {"default": value} for name, value in VARIABLES.items()},
    "locals": {"set": '${toset(["b", "a", "b"])}', "empty": {}, "mixed": ["${sim_net.one.id}", "a", {"k": "${sim_net.counted[1].id}"}]},
    "resource": {
        "sim_net": {
            "one": {"cidr": "x"},
            "counted": {"count": 2, "cidr": "c${count.index}"},
            "keyed": {"for_each": {"k": "one", "a": "two"}, "cidr": "f${each.key}-${each.value}"},
        }
    },
}
LITERALS = ["1", "0", "7", "9223372036854775807", "true", "false", "null", '"a"', '"k"', '""', '"x-1"', '"$${"', '"%%{"', '"\\n"']
NAMED = ["sim_net.one", "sim_net.one.id", "sim_net.one.id", "sim_net.one.cidr", "sim_net.one.tag", "sim_net.counted", "sim_net.counted[0].id"]
NAMED += ["sim_net.counted[1].cidr", "sim_net.keyed", 'sim_net.keyed["k"].id', "sim_net.keyed.k.cidr", "local.set", "local.empty", "local.mixed"]
PIECES = ["${", "}", '"', "%{", "%%{", "$${", "$", "%", "\\", "\\n", "\n", "\t", " ", "a", "a.b", "var.map", "true", "null", "1", "9223372036854775808"]
PIECES += ['"\\', *"=!&|<>?:()[],.+-*/#'~_", "==", "!=", "&&", "||", "<=", ">=", "length(", "1.5", "\x00", "é", "true.x", "null("]
LABELS = [("sim_net", name) for name in "abcd"] + [("sim_host", name) for name in "hijk"]


def term(chance, depth):
    """Returns the text of a term; most have a fault of evaluation."""
    if depth == 0 or chance.random() < 0.22:
        return chance.choice([*LITERALS, *NAMED, *(f"var.{name}" for name in VARIABLES)])

    def part():
        return term(chance, depth - 1)

    def parts(least, most):
        return ", ".join(part() for _ in range(chance.randint(least, most)))

    function = chance.choice([*FUNCTIONS])
    fitting = {"merge": "var.map, sim_net.one", "concat": "var.texts, sim_net.counted", "join": '"-", var.texts', "toset": "var.texts"}
    forms = [
        lambda: f"({part()})",
        lambda: f"[{parts(0, 3)}]",
        lambda: f"({part()})[{part()}]",
        lambda: f"({part()}).{chance.choice(['a', 'k', 'id', 'tag', 'nope'])}",
        lambda: f"{part()} {chance.choice(['+', '-', '*', '<', '>', '<=', '>='])} {part()}",
        lambda: f"{part()} {chance.choice(['==', '!=', '&&', '||'])} {part()}",
        lambda: f"{chance.choice(['true', 'false'])} {chance.choice(['&&', '||'])} {part()}",
        lambda: f"{chance.choice('!-')}{part()}",
        lambda: f"{part()} ? {part()} : {part()}",
        lambda: f'"{chance.choice(["", "a", "é", "$${", "%%{"])}${{{part()}}}{chance.choice(["", "z"])}"',
        lambda: f"{function}({parts(0, 3)})",
        lambda: f"{function}({fitting.get(function, 'var.map')}{chance.choice(['', ', ' + part()])})",
    ]
    return chance.choice(forms)()


def template(chance):
    text = f"${{{term(chance, chance.randint(1, 4))}}}"
    return chance.choice(["p", "$", "é"]) + text + chance.choice(["", "s"]) if chance.random() < 0.2 else text


def near_template(chance):
    """Returns a template with a few changes, or pieces of templates in any order."""
    if chance.random() < 0.5:
        return chance.choice(["${", "${", ""]) + "".join(chance.choices(PIECES, k=chance.randint(0, 8))) + chance.choice(["}", "", '"\\'])
    text = template(chance)
    for _ in range(chance.randint(1, 3)):
        at = chance.randint(0, len(text))
        text = text[:at] + chance.choice([chance.choice(PIECES) + text[at:], text[at + 1 :], ""])
    return text


class Site:
    """A configuration that changes step by step. Blocks refer to those before them in `order`."""

    def __init__(self, chance):
        self.chance, self.order = chance, chance.sample(LABELS, len(LABELS))
        self.config = {
            "variable": {"t": {"default": "vt"}, "l": {"default": ["x", "k"]}, "i": {"default": chance.choice([3, 101])}},
            "locals": {"l": chance.choice(["lv", "q${var.i}", 5]), "first": "none"},
            "resource": {kind: {} for kind in SCHEMAS},
            "output": {},
        }

    def block(self, addr):
        return self.config["resource"][addr[0]].get(addr[1])

    def blocks_before(self, addr):
        before = self.order[: self.order.index(addr)] if addr else self.order
        return [it for it in before if self.block(it) is not None]

    def attribute(self, addr, names):
        """Returns a reference to an attribute of one of these names; the instance that it names may not be there."""
        block, at = self.block(addr), ""
        if "count" in block:
            at = "[0]"
        elif "for_each" in block:
            at = self.chance.choice(['["k"]'] * 4 + [".x"])
        return f"{addr[0]}.{addr[1]}{at}.{self.chance.choice(names)}"

    def reference(self, addr):
        """Returns a reference to an attribute of a block before this one, or None."""
        if not (before := self.blocks_before(addr)):
            return None
        named = self.chance.choice(before)
        return self.attribute(named, [*SCHEMAS[named[0]], "id", "id"])

    def text(self, addr, own):
        """Returns an expression of a text, or now and then of a fault; `own` is what only this block may name."""
        named = self.reference(addr)
        plain = self.chance.choice(["x", "y", "z", "bad", "${var.t}", "${local.l}"]) + self.chance.choice(["", own])
        if named is None:
            return plain
        if self.chance.random() < 0.03:
            return f"${{{named} + 1}}"
        same = f"${{{named} == \"net-x\" ? \"t\" : {named}}}"
        return self.chance.choice([plain, plain, f"${{{named}}}", f"${{{named}}}", f"p-${{{named}}}{own}", same, "${local.first}"])

    def new_block(self, addr):
        chance, before, block, own = self.chance, self.blocks_before(addr), {}, ""
        many = [it for it in before if self.block(it).keys() & {"count", "for_each"}]
        repetition = chance.random()
        if repetition < 0.2:
            block["count"] = chance.choice([0, 1, 2, 2, 3, "${length(var.l)}", *(f"${{length({kind}.{name})}}" for kind, name in many)])
            own = "${count.index}"
        elif repetition < 0.45:
            keys = chance.sample(["k", "k", "x", "é'\"", ""], chance.randint(0, 4))
            maps = [f"${{{kind}.{name}}}" for kind, name in many if isinstance(self.block((kind, name)).get("for_each"), dict)]
            block["for_each"] = chance.choice([{key: self.text(addr, "") for key in keys}, "${toset(var.l)}", '${toset(["k"])}', *maps])
            own = "${each.value.id}" if block["for_each"] in maps else chance.choice(["${each.key}", "${each.value}"])
        for name, attribute in SCHEMAS[addr[0]].items():
            if attribute.mode == "required" or attribute.mode == "optional" and chance.random() < 0.6:
                texts = [self.text(addr, own)] * 3 + (["lie", "stuck", "stuck", None, 5, True] if name == "tag" else [])
                block[name] = chance.choice(texts if attribute.kind == "text" else [1, 7, 100, 101, "${50 + 51}", "${var.i}", None])
        if before and chance.random() < 0.3:
            block["depends_on"] = [".".join(it) for it in chance.sample(before, 1)]
        if chance.random() < 0.45:
            lifecycle = {"create_before_destroy": chance.random() < 0.7, "prevent_destroy": chance.random() < 0.06}
            block["lifecycle"] = lifecycle | {"ignore_changes": chance.sample([*SCHEMAS[addr[0]]], chance.choice([0, 1, 1, 2]))}
        return block

    def change(self):
        """Removes, changes and adds blocks and outputs, and removes what refers to a removed block. Sometimes starts from nothing."""
        chance, config = self.chance, self.config
        if chance.random() < 0.08:
            # (what is stored may then need in a ring what is made now)
            self.order = chance.sample(LABELS, len(LABELS))
            config["resource"] = {kind: {} for kind in SCHEMAS}
        for addr in self.order:
            block, named = self.block(addr), config["resource"][addr[0]]
            what = chance.random()
            if block is None and what < 0.5 or block is not None and 0.15 < what < 0.35:
                named[addr[1]] = self.new_block(addr)
            elif block is not None and what < 0.15:
                del named[addr[1]]
            elif block is not None and what < 0.55:
                new = self.new_block(addr)
                is_alike = not (block.keys() | new.keys()) & {"count", "for_each"}
                block.update({name: it for name, it in new.items() if name == "lifecycle" or is_alike and name not in ("cidr", "name")})
        for addr in self.order:
            if self.block(addr) is not None and not self.is_whole(self.block(addr)):
                del config["resource"][addr[0]][addr[1]]
        first = next(iter(self.blocks_before(None)), None)
        names_itself = first and ("local", "first") in references(self.block(first))
        config["locals"]["first"] = f"${{{self.attribute(first, ['id'])}}}" if first and not names_itself else "none"
        outputs = {name: it for name, it in config["output"].items() if self.is_whole(it) and chance.random() < 0.75}
        whole = [f"{kind}.{name}" for kind, name in self.blocks_before(None)]
        for name in "opq":
            named = [self.reference(None), chance.choice(whole)] if whole else ["var.t"]
            values = ["lit", "${local.first}", ["${var.t}", None], "${toset(var.l)}", *(f"${{{it}}}" for it in named), {"m": f"${{{named[0]}}}"}]
            faulty = f"${{{named[0]} + 1}}" if chance.random() < 0.03 else None
            outputs.setdefault(name, {"value": faulty or chance.choice(values)})
        config["output"] = {name: outputs[name] for name in outputs if name in config["output"] or chance.random() < 0.6}
        return copy.deepcopy(config)

    def is_whole(self, block):
        """Returns whether all blocks that a block or an output names exist."""
        named = {it for name, value in block.items() if name not in ("depends_on", "lifecycle") for it in references(value)}
        named |= {tuple(it.split(".")) for it in block.get("depends_on", [])}
        return all(self.block(it) is not None for it in named if it[0] in SCHEMAS)
