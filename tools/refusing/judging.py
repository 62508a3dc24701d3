"""Whether a run ended as it may, and how."""
import re

REFUSED = "error 15 at memory: OutOfMemory\n"
UNWRITTEN = "error: state not written\n"
WHOLE = "whole"
WORDS = {"Before": "before the call", "During": "during the call", "Output": "as an output"}
# What is printed if there is no memory for the program itself, before its plan is carried out, or for the checks that the kit
# compiles into it, which then end it.
OWN_WANT = re.compile(r'status 1: error: (Alloc|Kind\(OutOfMemory\)|"(the texts are|the plan is) refused")')
CHECKS_WANT = re.compile(r"status -\d+: ==\d+==ERROR: AddressSanitizer(: out of memory:)? failed to allocate ")


def told(ended):
    """Returns how a run ended, in words."""
    if isinstance(ended, str):
        return "without memory for the program itself" if has_no_room(ended) else "otherwise"
    if ended.outcomes is None:
        return "with 15"
    kinds = {kind for kind, _ in ended.excused}
    parts = [f"excused {words}" for kind, words in WORDS.items() if kind in kinds]
    return " and ".join(parts + ["state not written"] * (not ended.written)) or WHOLE


def has_no_room(ended):
    """Returns whether the program, or the kit's checks in it, had no memory. That is no answer of the engine's."""
    return isinstance(ended, str) and bool(OWN_WANT.match(ended) or CHECKS_WANT.match(ended))


class Judge:
    """Compares the runs of a plan with what `run_one` makes of it, where the provider has no memory for what a run excuses."""

    def __init__(self, program, given, outputs, without):
        """Takes the names of the plan's outputs, and a function from actions and outputs: what is given where the request of none
        of these actions has a fault, and these outputs aren't declared."""
        self.program, self.given, self.outputs, self.without, self.known = program, given, sorted(outputs), without, {}
        self.text = program.run("apply", given).shown.removesuffix(self.by_one((), ()).shown)

    def by_one(self, forgets, lost):
        """Returns what `run_one` makes of the plan, where the provider has no memory for actions and there is none for outputs:
        such an output isn't evaluated, and nothing is stored of it before."""
        if (forgets, lost) not in self.known:
            given = self.without(forgets, lost) if forgets or lost else self.given
            one = self.program.run("one", given, forgets=forgets)
            for name in lost:
                *lines, last = one.shown.splitlines()
                lines.append(f"error 26 at output.{name}: no memory")
                lines.sort(key=lambda line: line.split(": ")[0].split(" at ")[-1] if " at output." in line else "")
                shown = "\n".join([*lines, last.replace("complete!", "incomplete."), ""])
                one = one._replace(shown=shown, status=2)
            self.known[forgets, lost] = one
        return self.known[forgets, lost]

    def fault(self, ended, way, most=None):
        """Returns what is wrong with the end of a run, or nothing. At most the given number of things may be lost in it."""
        if isinstance(ended, str):
            return ended
        if ended.outcomes is None:
            is_refusal = (ended.shown, ended.status) == (REFUSED, 1) and not any(ended.calls) and ended.met
            return "" if is_refusal and most != 0 else "refused otherwise than for memory before the first call"
        if not ended.whole or not ended.closed:
            return "the journal is withheld, or a worker's seat is lost"
        losses = len(ended.excused) + (not ended.written)
        if not ended.met and losses:
            return "no growth was refused, and something is lost"
        if most is not None and losses > most:
            return f"{losses} things are lost, and {most} growths were refused"
        return self.fault_of_calls(ended) or self.fault_of_report(ended, self.text if way == "apply" else "")

    def fault_of_calls(self, ended):
        """Returns what is wrong if the calls aren't those of the journal, or the journal's not those that outcomes and excuses imply."""
        names = self.given.actions
        called = sorted(at for at, op in ended.journal if names[at].endswith(f" {op}"))
        made = [at for at, calls in enumerate(ended.calls) for _ in range(calls)]
        due = [at for at, it in enumerate(ended.outcomes) if it.startswith("Judged") or ("During", at) in ended.excused]
        excused = [at for at, it in enumerate(ended.outcomes) if it == "Excused"]
        named = [at for kind, at in ended.excused if kind in ("Before", "During")]
        return "" if called == made == due and excused == named else "the calls aren't those of the journal"

    def fault_of_report(self, ended, text):
        """Returns what is wrong if the report isn't the definition's, for its own excuses, or isn't printed after this text."""
        forgets = tuple(self.given.actions[at] for kind, at in ended.excused if kind != "Output")
        one = self.by_one(forgets, tuple(self.outputs[at] for kind, at in ended.excused if kind == "Output"))
        unwritten = one.changed and not ended.written
        if ended.shown != text + one.shown + (UNWRITTEN if unwritten else ""):
            return f"it shows {ended.shown!r}"
        if ended.status != (3 if unwritten else one.status):
            return f"its status is {ended.status}"
        if (ended.outcomes, ended.good, ended.changed) != (one.outcomes, one.good, one.changed):
            return "outcomes or numbers aren't those of run_one"
        return "" if ended.state == one.state else f"the state after is {ended.state}"
