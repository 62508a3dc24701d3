"""States: their text as it is written, what of other texts is read as one, and addresses."""
import json
from dataclasses import dataclass, field

MANAGED = 'provider["registry.terraform.io/hashicorp/sim"]'


@dataclass(frozen=True)
class Record:
    attributes: dict
    is_tainted: bool = False
    dependencies: tuple = ()
    create_before_destroy: bool = False


@dataclass(frozen=True)
class Resource:
    """`records` are by key and deposed key, None where there is none."""

    records: dict
    provider: str = MANAGED


@dataclass(frozen=True)
class State:
    """`outputs` are values by name, `resources` by type and name."""

    lineage: str
    serial: int = 0
    terraform_version: str = "1.0.0"
    outputs: dict = field(default_factory=dict)
    resources: dict = field(default_factory=dict)


def json_text(value):
    return json.dumps(value, ensure_ascii=False)


def addr_text(addr):
    return ".".join(addr)


def address(addr, key):
    return addr_text(addr) + ("" if key is None else f"[{json_text(key)}]")


def key_order(key):
    """No key, then whole numbers, then texts by bytes."""
    return (0, 0) if key is None else (1, key) if isinstance(key, int) else (2, key.encode())


def type_of(value):
    """Returns the type that is written for an output's value."""
    if isinstance(value, list):
        return ["tuple", [type_of(it) for it in value]]
    if isinstance(value, dict):
        return ["object", {name: type_of(it) for name, it in value.items()}]
    return {type(None): "dynamic", bool: "bool", int: "number", str: "string"}[type(value)]


def written_record(key, deposed, record):
    properties = {
        "schema_version": 0,
        "attributes": record.attributes,
        "index_key": key,
        "deposed": deposed,
        "status": "tainted" if record.is_tainted else None,
        "dependencies": [addr_text(it) for it in sorted(record.dependencies)] or None,
        "create_before_destroy": record.create_before_destroy or None,
    }
    return {name: it for name, it in properties.items() if it is not None}


def text(state):
    """Returns the one text that is written for a state."""
    resources = []
    for (kind, name), resource in sorted(state.resources.items()):
        order = sorted(resource.records, key=lambda it: (key_order(it[0]), it[1] or ""))
        instances = [written_record(*it, resource.records[it]) for it in order]
        resources.append({"mode": "managed", "type": kind, "name": name, "provider": resource.provider, "instances": instances})
    whole = {
        "version": 4,
        "serial": state.serial,
        "lineage": state.lineage,
        "terraform_version": state.terraform_version,
        "outputs": {name: {"value": value, "type": type_of(value)} for name, value in state.outputs.items()},
        "resources": resources,
    }
    return json.dumps(whole, indent=2, sort_keys=True, ensure_ascii=False) + "\n"
