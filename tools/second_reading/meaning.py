"""What templates and expressions mean: a value, a text among them, or the first fault."""
from templates import Attribute, Binary, Call, Choice, Index, Items, Literal, Reference, Unary, Woven, read

LEAST, GREATEST = -(2**63), 2**63 - 1
# the least and the greatest number of arguments
FUNCTIONS = {"length": (1, 1), "keys": (1, 1), "values": (1, 1), "merge": (1, 999), "concat": (1, 999), "join": (2, 2), "toset": (1, 1)}


class Fault(Exception):
    """Overflow, WrongKind, Missing or Arity."""

    def __init__(self, kind):
        super().__init__(kind)
        self.kind = kind


class Unknown:
    """The type of the one value that isn't known yet."""

    def __repr__(self):
        return "UNKNOWN"


UNKNOWN = Unknown()


class TextSet:
    def __init__(self, texts):
        self.texts = sorted(set(texts), key=str.encode)


class Scope:
    """The values of references. A local is evaluated when it is referred to."""

    def __init__(self, constants, local_values):
        self.constants, self.locals = constants, local_values

    def look_up(self, first, name):
        if first == "local" and name in self.locals:
            return value_of(self.locals[name], self)
        if (first, name) not in self.constants:
            raise Fault("Missing")
        return self.constants[first, name]

    def with_more(self, constants):
        return Scope({**self.constants, **constants}, self.locals)


def is_whole(value):
    return isinstance(value, int) and not isinstance(value, bool)


def has_unknown(value):
    parts = value.values() if isinstance(value, dict) else value if isinstance(value, list) else []
    return value is UNKNOWN or any(has_unknown(it) for it in parts)


def are_same(one, other):
    """Whether two values are equal in kind and value."""
    if type(one) is not type(other):
        return False
    if isinstance(one, list):
        return len(one) == len(other) and all(map(are_same, one, other))
    if isinstance(one, dict):
        return one.keys() == other.keys() and all(are_same(one[key], other[key]) for key in one)
    return one.texts == other.texts if isinstance(one, TextSet) else one == other


def demand(holds, kind="WrongKind"):
    if not holds:
        raise Fault(kind)


def text_of(value):
    """Returns the text of a text, a whole number or a truth value."""
    demand(isinstance(value, (str, int)))
    return value if isinstance(value, str) else str(value).lower()


def in_range(number):
    demand(LEAST <= number <= GREATEST, "Overflow")
    return number


def with_lists(value):
    """Returns a value with the list of its texts in place of each set."""
    if isinstance(value, TextSet):
        return list(value.texts)
    if isinstance(value, list):
        return [with_lists(it) for it in value]
    return {key: with_lists(it) for key, it in value.items()} if isinstance(value, dict) else value


def value_of(expression, scope):
    """Returns the value of an expression, which is a JSON tree whose texts are templates."""
    if isinstance(expression, str):
        return meaning(read(expression), scope)
    if isinstance(expression, list):
        return [value_of(it, scope) for it in expression]
    if isinstance(expression, dict):
        return {key: value_of(expression[key], scope) for key in sorted(expression, key=str.encode)}
    return expression


def meaning(term, scope):
    """Returns the value of a term: its parts from left to right, then what is unknown, then kinds."""
    match term:
        case Literal(value):
            return value
        case Reference(first, name):
            return scope.look_up(first, name)
        case Woven(["", ""], [alone]):
            return meaning(alone, scope)
        case Choice(condition, yes, no):
            is_met = meaning(condition, scope)
            if is_met is UNKNOWN:
                return UNKNOWN
            demand(isinstance(is_met, bool))
            return meaning(yes if is_met else no, scope)
        case Call(function, arguments):
            least, most = FUNCTIONS[function]
            demand(least <= len(arguments) <= most, "Arity")
        case Woven(_, arguments) | Items(arguments):
            pass
        case Unary(_, operand):
            arguments = [operand]
        case Binary(_, left, right) | Index(left, right):
            arguments = [left, right]
        case Attribute(base, _):
            arguments = [base]
    return combined(term, [meaning(it, scope) for it in arguments])


def combined(term, values):
    looks_inside = isinstance(term, Call) and term.function in ("join", "toset") or isinstance(term, Binary) and term.operator in ("==", "!=")
    if any(has_unknown(it) if looks_inside else it is UNKNOWN for it in values) and not isinstance(term, Items):
        return UNKNOWN
    match term:
        case Items():
            return values
        case Woven(texts, _):
            return "".join(text + text_of(it) for text, it in zip(texts, values)) + texts[-1]
        case Unary("!", _):
            demand(isinstance(values[0], bool))
            return not values[0]
        case Unary("-", _):
            demand(is_whole(values[0]))
            return in_range(-values[0])
        case Binary(operator, _, _):
            return operated(operator, *values)
        case Call(function, _):
            return answered(function, values)
        case Attribute(_, name):
            return part_of(values[0], name)
        case Index():
            return part_of(*values)


def part_of(base, at):
    if isinstance(base, dict) and isinstance(at, str):
        demand(at in base, "Missing")
    else:
        demand(isinstance(base, list) and is_whole(at))
        demand(0 <= at < len(base), "Missing")
    return base[at]


def operated(operator, left, right):
    match operator:
        case "==" | "!=":
            return are_same(left, right) == (operator == "==")
        case "&&" | "||":
            demand(isinstance(left, bool) and isinstance(right, bool))
            return left and right if operator == "&&" else left or right
    demand(is_whole(left) and is_whole(right))
    match operator:
        case "+":
            return in_range(left + right)
        case "-":
            return in_range(left - right)
        case "*":
            return in_range(left * right)
        case "<" | "<=":
            return left < right or (operator == "<=" and left == right)
        case ">" | ">=":
            return left > right or (operator == ">=" and left == right)


def answered(function, values):
    first = values[0]
    match function:
        case "length":
            demand(isinstance(first, (list, dict, TextSet)))
            return len(first.texts if isinstance(first, TextSet) else first)
        case "keys" | "values":
            demand(isinstance(first, dict))
            keys = sorted(first, key=str.encode)
            return keys if function == "keys" else [first[key] for key in keys]
        case "merge":
            demand(all(isinstance(it, dict) for it in values))
            return {key: part for it in values for key, part in it.items()}
        case "concat":
            demand(all(isinstance(it, list) for it in values))
            return [part for it in values for part in it]
        case "join":
            between = text_of(first)
            demand(isinstance(values[1], list))
            return between.join(map(text_of, values[1]))
        case "toset":
            if isinstance(first, TextSet):
                return first
            demand(isinstance(first, list) and all(isinstance(it, str) for it in first))
            return TextSet(first)
