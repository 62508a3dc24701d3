"""What a configuration plans over a state, with the types of the provider `sim`."""
from dataclasses import dataclass, field
from typing import NamedTuple

from meaning import UNKNOWN, Fault, Scope, TextSet, are_same, is_whole, text_of, value_of
from states import State, address, json_text, key_order, addr_text
from templates import Reference, nodes, read

META = {"count", "for_each", "depends_on", "lifecycle", "//"}


class Attribute(NamedTuple):
    kind: str
    mode: str
    force_new: bool = False


SCHEMAS = {
    "sim_net": {"cidr": Attribute("text", "required", True), "tag": Attribute("text", "optional"), "id": Attribute("text", "computed")},
    "sim_host": {
        "name": Attribute("text", "required", True),
        "net": Attribute("text", "optional"),
        "size": Attribute("number", "optional"),
        "id": Attribute("text", "computed"),
    },
}


class Refused(Exception):
    """Nothing is called: the lines say why."""

    def __init__(self, lines):
        super().__init__(lines)
        self.lines = lines


class Wrong(Exception):
    """What is wrong with `count`, `for_each` or an attribute: its name, the refusal's code and name."""

    def __init__(self, name, code, told):
        super().__init__(name, code, told)
        self.name, self.code, self.told = name, code, told


class Action(NamedTuple):
    """`verb` is create, update or destroy."""

    addr: tuple
    key: object
    verb: str
    deposed: object = None


def references(expression):
    """Yields what an expression names."""
    if isinstance(expression, str):
        yield from ((it.first, it.name) for it in nodes(read(expression)) if isinstance(it, Reference))
    elif isinstance(expression, (list, dict)):
        for it in expression.values() if isinstance(expression, dict) else expression:
            yield from references(it)


def closure(edges):
    """Returns all that each node leads to."""

    def reached(node):
        found, left = set(), [node]
        while left:
            new = edges.get(left.pop(), set()) - found
            found |= new
            left += new
        return found

    return {node: reached(node) for node in edges}


@dataclass
class Plan:
    """A configuration, and its plan over a state. `keys` are by resource; `changes` and `planned` by instance."""

    config: dict
    prior: State
    keys: dict = field(default_factory=dict)
    changes: dict = field(default_factory=dict)
    planned: dict = field(default_factory=dict)
    actions: list = field(default_factory=list)

    def __post_init__(self):
        self.blocks = {(kind, name): block for kind, named in self.config.get("resource", {}).items() for name, block in named.items()}
        constants = {("var", name): it.get("default") for name, it in self.config.get("variable", {}).items()}
        self.scope = Scope(constants, self.config.get("locals", {}))
        named = {addr: self.named_by_block(block) for addr, block in self.blocks.items()}
        stored = {addr: {it for record in resource.records.values() for it in record.dependencies} for addr, resource in self.prior.resources.items()}
        self.needs, self.needed = closure(named), closure(stored)
        both = {addr: named.get(addr, set()) | stored.get(addr, set()) for addr in {*named, *stored}}
        flagged = {addr for addr in both if self.creates_first(addr)}
        self.late = flagged.union(*(reached for addr, reached in closure(both).items() if addr in flagged))

    def named_by_block(self, block):
        depends_on = {tuple(it.split(".")) for it in block.get("depends_on", [])}
        return depends_on.union(*(self.resources_of(it) for name, it in block.items() if name not in ("depends_on", "lifecycle", "//")))

    def resources_of(self, expression, through=()):
        """Returns the resources that an expression names, itself or through locals."""
        found = set()
        for first, name in references(expression):
            if first in SCHEMAS:
                found.add((first, name))
            elif first == "local" and name not in through:
                found |= self.resources_of(self.config["locals"][name], (*through, name))
        return found

    def creates_first(self, addr):
        """Whether a resource itself has `create_before_destroy`: by its block, or where that is gone by the state."""
        if addr in self.blocks:
            return self.blocks[addr].get("lifecycle", {}).get("create_before_destroy", False)
        return any(it.create_before_destroy for it in self.prior.resources[addr].records.values())

    def record(self, addr, key, deposed=None):
        resource = self.prior.resources.get(addr)
        return resource and resource.records.get((key, deposed))

    def by_needs(self):
        """Returns the blocks' addresses, each after those that it needs."""
        return sorted(self.blocks, key=lambda addr: len(self.needs[addr]))

    def standing(self, addrs, object_of):
        """Returns the values of references to resources, by the object of each instance."""
        found = {}
        for addr in addrs:
            block, keys = self.blocks[addr], self.keys[addr]
            if "count" in block:
                found[addr] = [object_of(addr, key) for key in keys]
            elif "for_each" in block:
                found[addr] = {key: object_of(addr, key) for key in keys}
            else:
                found[addr] = object_of(addr, None)
        return found

    # Instances

    def expand(self):
        """Gives each resource its keys, or refuses the first one, by address, that has none though all that it needs do."""
        refusals = {}
        for addr in self.by_needs():
            if self.needs[addr] <= self.keys.keys():
                scope = self.scope.with_more(self.standing(self.needs[addr], lambda *_: UNKNOWN))
                try:
                    self.keys[addr] = self.keys_of(self.blocks[addr], scope)
                except Wrong as why:
                    refusals[addr] = f"error {why.code} at {addr_text(addr)}: {why.told}"
        if refusals:
            raise Refused([refusals[min(refusals)]])

    @staticmethod
    def keys_of(block, scope):
        word = next((it for it in ("count", "for_each") if it in block), None)
        try:
            value = value_of(block[word], scope) if word else None
        except Fault as fault:
            raise Wrong(word, 9, f"Evaluate({fault.kind})") from fault
        if value is UNKNOWN:
            raise Wrong(word, 8, "UnknownInstances")
        if word is None:
            return [None]
        if word == "count":
            if not is_whole(value) or value < 0:
                raise Wrong(word, 6, "BadCount")
            return list(range(value))
        if not isinstance(value, (dict, TextSet)):
            raise Wrong(word, 7, "BadForEach")
        return value.texts if isinstance(value, TextSet) else sorted(value, key=str.encode)

    def instances(self):
        """Returns the instances of configuration and state in address order."""
        found = {(addr, key) for addr, keys in self.keys.items() for key in keys}
        found |= {(addr, key) for addr, resource in self.prior.resources.items() for key, _ in resource.records}
        return sorted(found, key=lambda it: (it[0], key_order(it[1])))

    # Planned objects

    def arguments(self, addr, key, objects):
        """Returns the values of all attributes but the computed ones, or raises what is wrong first: `for_each`, then by name."""
        block, schema = self.blocks[addr], SCHEMAS[addr[0]]
        scope, values, at = self.scope.with_more(objects), {}, "for_each"
        ignored = block.get("lifecycle", {}).get("ignore_changes", [])
        try:
            if "count" in block:
                scope = scope.with_more({("count", "index"): key})
            if "for_each" in block:
                each = value_of(block["for_each"], scope)
                scope = scope.with_more({("each", "key"): key, ("each", "value"): each[key] if isinstance(each, dict) else key})
            for at in sorted({*block, *schema, *ignored} - META, key=str.encode):
                value = value_of(block[at], scope) if at in block and at in schema else None
                if at not in schema or not self.fits(schema[at], value):
                    raise Wrong(at, 10, "BadArgument")
                if schema[at].mode != "computed":
                    values[at] = text_of(value) if schema[at].kind == "text" and value not in (None, UNKNOWN) else value
        except Fault as fault:
            raise Wrong(at, 9, f"Evaluate({fault.kind})") from fault
        return values

    @staticmethod
    def fits(attribute, value):
        if attribute.mode == "computed":
            return value is None
        if value is None:
            return attribute.mode != "required"
        return value is UNKNOWN or (isinstance(value, (str, int)) if attribute.kind == "text" else is_whole(value))

    def plan(self):
        """Plans each instance, or refuses those, and the outputs, at fault, each where nothing that it needs was refused."""
        self.expand()
        refusals, refused = {}, set()
        for addr in [*self.by_needs(), *(it for it in self.prior.resources if it not in self.blocks)]:
            if self.needs.get(addr, set()) & refused:
                refused.add(addr)
                continue
            objects = self.standing(self.needs.get(addr, ()), lambda *it: self.planned[it])
            for key in [key for it, key in self.instances() if it == addr]:
                if why := self.refusal_of(addr, key, objects):
                    refusals[addr, key] = why
                    refused.add(addr)
        lines = [refusals[it] for it in self.instances() if it in refusals]
        for name, output in sorted(self.config.get("output", {}).items()):
            addrs = self.resources_of(output["value"])
            if not addrs & refused:
                try:
                    value_of(output["value"], self.scope.with_more(self.standing(addrs, lambda *it: self.planned[it])))
                except Fault as fault:
                    lines.append(f"error 9 at output.{name}: Evaluate({fault.kind})")
        if lines:
            raise Refused(lines)
        self.actions = list(self.listed_actions())

    def refusal_of(self, addr, key, objects):
        """Plans an instance, and returns the line that refuses it, if one does."""
        block, is_kept, where = self.blocks.get(addr, {}), key in self.keys.get(addr, []), address(addr, key)
        is_protected = block.get("lifecycle", {}).get("prevent_destroy", False)
        if is_kept:
            try:
                self.changes[addr, key], self.planned[addr, key] = self.change_of(addr, key, self.arguments(addr, key, objects))
            except Wrong as why:
                return f"error {why.code} at {where}{'' if why.name == 'for_each' else '.' + why.name}: {why.told}"
        elif self.record(addr, key):
            self.changes[addr, key] = "delete"
        if is_protected and self.changes.get((addr, key)) in ("replace", "delete"):
            return f"error 12 at {where}: PreventDestroy"
        return None

    def change_of(self, addr, key, values):
        """Returns an instance's change and its planned object."""
        schema, prior = SCHEMAS[addr[0]], self.record(addr, key)
        computed = [name for name, it in schema.items() if it.mode == "computed"]
        anew = values | dict.fromkeys(computed, UNKNOWN)
        if not prior or prior.is_tainted:
            return "replace" if prior else "create", anew
        kept = self.with_ignored(addr, values, prior)
        differing = [name for name in values if not are_same(kept[name], prior.attributes[name])]
        if any(schema[name].force_new for name in differing):
            return "replace", anew
        return "update" if differing else "none", kept | {name: prior.attributes[name] for name in computed}

    def with_ignored(self, addr, values, prior):
        """Returns the values, those whose changes are ignored as they were."""
        ignored = self.blocks[addr].get("lifecycle", {}).get("ignore_changes", [])
        return {name: prior.attributes[name] if name in ignored else it for name, it in values.items()}

    # Actions and their order

    def listed_actions(self):
        for addr, key in self.instances():
            change = self.changes.get((addr, key))
            if change in ("create", "update", "replace"):
                yield Action(addr, key, "update" if change == "update" else "create")
            if change in ("replace", "delete"):
                yield Action(addr, key, "destroy")
            records = self.prior.resources[addr].records if addr in self.prior.resources else {}
            for deposed in sorted(it for of, it in records if of == key and it):
                yield Action(addr, key, "destroy", deposed)

    def is_before(self, first, second):
        """The five cases in which one action waits for another."""
        one, other = first.addr, second.addr
        is_pair = (one, first.key) == (other, second.key) and not first.deposed and not second.deposed
        match first.verb == "destroy", second.verb == "destroy":
            case False, False:
                return one in self.needs[other]
            case True, True:
                return other in self.needed.get(one, ()) and one not in self.needed.get(other, ())
            case True, False:
                return is_pair and other not in self.late
            case False, True:
                return other in self.late and (is_pair or other in self.needs[one] or other in self.needed.get(one, ()))

    def text(self):
        if not self.actions:
            return "No changes.\n"
        signs = {"create": "+", "update": "~", "delete": "-"}
        lines, counts = [], {"create": 0, "update": 0, "destroy": 0}
        for action in self.actions:
            addr, key, verb, deposed = action
            change = self.changes.get((addr, key))
            counts[verb] += 1
            if deposed:
                lines.append(f"- {address(addr, key)} (deposed {deposed})")
            elif verb != "destroy" or change == "delete":
                sign = signs.get(change) or ("+/-" if addr in self.late else "-/+")
                lines += [f"{sign} {address(addr, key)}", *self.attribute_lines(action)]
        counted = ", ".join(f"{it} to {word}" for it, word in zip(counts.values(), ("add", "change", "destroy")))
        return "\n".join([*lines, f"Plan: {counted}."]) + "\n"

    def attribute_lines(self, action):
        if action.verb == "destroy":
            return
        prior = self.record(action.addr, action.key)
        for name, value in sorted(self.planned[action.addr, action.key].items()):
            differs = value is not None if action.verb == "create" else not are_same(value, prior.attributes[name])
            if differs:
                yield f"    {name} = {'(known after apply)' if value is UNKNOWN else json_text(value)}"
