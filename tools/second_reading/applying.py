"""What carrying a plan out comes to: outcomes, diagnostics, counts and the state after, with the provider `sim`."""
from dataclasses import dataclass, field, replace

from meaning import UNKNOWN, Fault, are_same, value_of, with_lists
from planning import Action, Plan, Wrong
from states import Record, Resource, address


def provided(request, verb):
    """Returns what `sim` answers: a message or None, and an object or None."""
    if "cidr" in request:
        if verb == "destroy":
            return ("stuck", None) if request["tag"] == "stuck" else (None, None)
        if verb == "create" and request["cidr"] == "bad":
            return "refused", None
        told = {"lie": "truth"}.get(request["tag"], request["tag"])
        return None, {**request, "tag": told, "id": f"net-{request['cidr']}"}
    if verb == "destroy":
        return None, None
    if request["size"] is not None and request["size"] > 100:
        return "size too large", None
    return None, {**request, "id": f"host-{request['name']}"}


@dataclass
class Walk:
    """A plan that is carried out. If `is_stopped`, the stop flag was set before the first call, so each action that isn't
    skipped is left. `outcomes`, `told` (diagnostics) and `objects` are by action."""

    plan: Plan
    is_stopped: bool = False
    outcomes: dict = field(default_factory=dict)
    told: dict = field(default_factory=dict)
    objects: dict = field(default_factory=dict)

    def __post_init__(self):
        for action in self.plan.actions:
            self.outcome(action)

    def outcome(self, action):
        if action not in self.outcomes:
            self.outcomes[action] = self.ended(action)
        return self.outcomes[action]

    def ended(self, action):
        if any(self.outcome(it) != "Good" for it in self.plan.actions if self.plan.is_before(it, action)):
            return "Skipped"
        if self.is_stopped:
            return self.tell(action, "Left", 27, "left")
        prior = self.plan.record(action.addr, action.key, action.deposed)
        if action.verb == "destroy":
            message, _ = provided(prior.attributes, "destroy")
            return self.tell(action, "Failed", 21, message) if message else "Good"
        try:
            request = self.requested(action, prior)
        except Wrong as why:
            return self.tell(action, "ArgumentFault", 24, f"{why.name}: {why.told}")
        message, reply = provided(request, action.verb)
        if message:
            return self.tell(action, "Failed", 21, message)
        self.objects[action] = reply
        strayed = [name for name, it in sorted(request.items()) if it is not UNKNOWN and not are_same(it, reply[name])]
        return self.tell(action, "Contradicted", 22, f"contradicts {strayed[0]}") if strayed else "Good"

    def tell(self, action, outcome, code, message):
        self.told[action] = (code, message)
        return outcome

    def requested(self, action, prior):
        """Returns the requested object: its arguments, evaluated again with the replies so far."""
        addr, key, verb, _ = action
        values = self.plan.arguments(addr, key, self.plan.standing(self.plan.needs[addr], self.object_of))
        if verb == "update":
            return self.plan.with_ignored(addr, values, prior) | {"id": prior.attributes["id"]}
        return values | {"id": UNKNOWN}

    def object_of(self, addr, key):
        """Returns an instance's object once all that is to be applied to it is good."""
        change = self.plan.changes[addr, key]
        if change == "none":
            return self.plan.record(addr, key).attributes
        return self.objects[Action(addr, key, "update" if change == "update" else "create")]

    def diagnostics(self):
        lines = []
        for action in self.plan.actions:
            if action in self.told:
                code, message = self.told[action]
                deposed = f" (deposed {action.deposed})" if action.deposed else ""
                lines.append(f"error {code} at {address(action.addr, action.key)}{deposed} {action.verb}: {message}")
        return lines + [f"error 24 at output.{name}: Evaluate({kind})" for name, kind in self.outputs()[1].items()]

    def counts(self):
        """Returns how many creates, updates and destroys are good."""
        return [sum(it.verb == verb and self.outcomes[it] == "Good" for it in self.plan.actions) for verb in ("create", "update", "destroy")]

    # The state after

    def state(self):
        """Returns the state after; its serial is one more where the rest changed."""
        prior = self.plan.prior
        resources = {}
        for addr, key in self.plan.instances():
            if records := self.records_after(addr, key):
                resource = resources.setdefault(addr, Resource({}, prior.resources[addr].provider) if addr in prior.resources else Resource({}))
                resource.records.update({(key, deposed): it for deposed, it in records.items()})
        after = replace(prior, outputs=self.outputs()[0], resources=resources)
        same_outputs = are_same(after.outputs, prior.outputs)
        return after if same_outputs and resources == prior.resources else replace(after, serial=prior.serial + 1)

    def records_after(self, addr, key):
        """Returns an instance's records after, by deposed key."""
        plan, change = self.plan, self.plan.changes.get((addr, key))
        prior = {deposed: it for (of, deposed), it in plan.prior.resources[addr].records.items() if of == key} if addr in plan.prior.resources else {}
        kept = {deposed: it for deposed, it in prior.items() if self.outcomes.get(Action(addr, key, "destroy", deposed)) != "Good"}
        if change == "none":
            kept[None] = self.anew(addr, prior[None])
        if saved := self.saved(addr, key, change):
            if None in kept and change == "replace":
                kept[self.new_deposed_key(prior)] = kept[None]
            kept[None] = saved
        return kept

    def saved(self, addr, key, change):
        """Returns the record that a create or update saved, if it saved one."""
        action = Action(addr, key, "update" if change == "update" else "create")
        if action not in self.objects:
            return None
        is_tainted = action.verb == "create" and self.outcomes[action] == "Contradicted"
        return self.anew(addr, Record(self.objects[action], is_tainted))

    def anew(self, addr, record):
        """Returns a record with what the configuration says of its resource."""
        return replace(record, dependencies=tuple(sorted(self.plan.needs[addr])), create_before_destroy=addr in self.plan.late)

    def new_deposed_key(self, prior):
        number = self.plan.prior.serial + 1
        while f"{number % 2**32:08x}" in prior:
            number += 1
        return f"{number % 2**32:08x}"

    def outputs(self):
        """Returns the outputs after, and the fault of each that has one."""
        after, faults, kept = {}, {}, self.plan.prior.outputs
        for name, output in sorted(self.plan.config.get("output", {}).items()):
            addrs = self.plan.resources_of(output["value"])
            is_anew = all(it == "Good" for action, it in self.outcomes.items() if action.addr in addrs and action.verb != "destroy")
            try:
                value = self.output_value(output["value"], addrs) if is_anew else kept.get(name)
            except Fault as fault:
                faults[name], value = fault.kind, kept.get(name)
            if value is not None:
                after[name] = value
        return after, faults

    def output_value(self, expression, addrs):
        return with_lists(value_of(expression, self.plan.scope.with_more(self.plan.standing(addrs, self.object_of))))

    def is_whole(self):
        return all(it == "Good" for it in self.outcomes.values()) and not self.outputs()[1]
