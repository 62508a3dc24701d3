"""The plans whose growths are refused."""
import os


def blocks(nets, hosts, **more):
    """Returns a configuration of nets and hosts."""
    return {"resource": {kind: them for kind, them in (("sim_net", nets), ("sim_host", hosts)) if them}, **more}


def created(*addresses):
    """Returns the creates of these."""
    return [f"{it} create" for it in addresses]


LATE = {"create_before_destroy": True}
HOST = {"h": {"name": "h", "net": "${sim_net.a.id}"}}
FOUR = {
    "a": {"name": "a"},
    "b": {"name": "b", "net": "${sim_host.a.id}"},
    "c": {"name": "c", "net": "${sim_host.a.id}"},
    "d": {"name": "d", "net": "${sim_host.b.id}-${sim_host.c.id}"},
}
FOUR_CREATED = created("sim_host.a", "sim_host.b", "sim_host.c", "sim_host.d")

# Of each plan its configuration, what leaves its prior state, and its actions, in action order.
PLANS = {
    "a net": (blocks({"a": {"cidr": "x"}}, {}), None, created("sim_net.a")),
    "four hosts": (blocks({}, FOUR), None, FOUR_CREATED),
    "a net replaced late": (
        blocks({"a": {"cidr": "y", "lifecycle": LATE}}, HOST),
        blocks({"a": {"cidr": "x"}}, HOST),
        ["sim_host.h update", "sim_net.a create", "sim_net.a destroy"],
    ),
    "a net that lies": (blocks({"a": {"cidr": "x", "tag": "lie"}}, HOST), None, created("sim_host.h", "sim_net.a")),
    "an output": ({"output": {"o": {"value": "${1 + 2}"}}}, None, []),
}

# The request of h has a fault. Where there is no memory for the request, that doesn't show: as if h had none.
COUNTS_AND_KEYS = blocks(
    {"a": {"count": "${var.n}", "cidr": "${count.index}"}},
    {
        "g": {"for_each": '${toset(["k", "j"])}', "name": "${each.key}", "net": "${local.id}"},
        "h": {"name": "h", "size": "${local.id}"},
        "i": {"name": "i", "depends_on": ["sim_host.h"]},
    },
    variable={"n": {"default": 2}},
    locals={"id": "${sim_net.a[0].id}"},
    output={"id": {"value": "${local.id}"}, "sum": {"value": "${local.id + 1}"}},
)
HOSTS_AND_NETS = COUNTS_AND_KEYS["resource"]
MENDED = {**HOSTS_AND_NETS, "sim_host": {**HOSTS_AND_NETS["sim_host"], "h": {"name": "h"}}}

# The same, of mixtures: nets and hosts of which some aren't good and one is skipped; an output of more than itself; counts, keys
# and faults; and late and early replaces, an update, and destroys of what is current and what is deposed.
MIXTURES = {
    "nets and hosts": (
        blocks(
            {"a": {"cidr": "x"}, "b": {"cidr": "bad"}, "c": {"cidr": "x", "tag": "lie"}},
            {"h": {"name": "n${1 + 2}", "size": 1}, "k": {"name": "k", "net": "${sim_net.c.id}"}},
        ),
        None,
        created("sim_host.h", "sim_host.k", "sim_net.a", "sim_net.b", "sim_net.c"),
    ),
    "counts and keys": (
        COUNTS_AND_KEYS,
        None,
        created('sim_host.g["j"]', 'sim_host.g["k"]', "sim_host.h", "sim_host.i", "sim_net.a[0]", "sim_net.a[1]"),
        {"sim_host.h create": {**COUNTS_AND_KEYS, "resource": MENDED}},
    ),
    "all kinds of changes": (
        blocks(
            {"a": {"cidr": "y", "lifecycle": LATE}, "b": {"cidr": "b"}, "e": {"cidr": "e"}},
            {
                "h": {"name": "g", "net": "${sim_net.a.id}", "lifecycle": LATE},
                "i": {"name": "i", "net": "${sim_net.a.id}"},
            },
            output={"o": {"value": "${sim_net.a.id}"}},
        ),
        f"{os.path.dirname(os.path.realpath(__file__))}/changes.tfstate",
        [
            "sim_host.h create",
            "sim_host.h destroy",
            "sim_host.i update",
            "sim_net.a create",
            "sim_net.a destroy",
            "sim_net.b create",
            "sim_net.b destroy",
            "sim_net.d destroy",
            "sim_net.e (deposed 00000002) destroy",
        ],
    ),
}

# A worker has space for 64 hints at first, and the one that ends the net gives one for each host.
HOSTS = 66
WIDE = (
    blocks({"a": {"cidr": "x"}}, {"h": {"count": HOSTS, "name": "h", "depends_on": ["sim_net.a"]}}),
    None,
    created(*(f"sim_host.h[{it}]" for it in range(HOSTS)), "sim_net.a"),
)

# How the actions of four hosts end where there is no memory for b.
ALL_BUT_B = ["Judged(Good)", "Excused", "Judged(Good)", "Skipped"]
UNKNOWN_ID = "    id = (known after apply)\n"
UNKNOWN_NET = "    net = (known after apply)\n"
NO_MEMORY_FOR_B = (
    f'+ sim_host.a\n{UNKNOWN_ID}    name = "a"\n'
    f'+ sim_host.b\n{UNKNOWN_ID}    name = "b"\n{UNKNOWN_NET}'
    f'+ sim_host.c\n{UNKNOWN_ID}    name = "c"\n{UNKNOWN_NET}'
    f'+ sim_host.d\n{UNKNOWN_ID}    name = "d"\n{UNKNOWN_NET}'
    "Plan: 4 to add, 0 to change, 0 to destroy.\n"
    "error 26 at sim_host.b create: no memory\n"
    "Apply incomplete. Resources: 2 added, 0 changed, 0 destroyed.\n"
)
THE_OTHER_TWO = (
    f'+ sim_host.b\n{UNKNOWN_ID}    name = "b"\n    net = "host-a"\n'
    f'+ sim_host.d\n{UNKNOWN_ID}    name = "d"\n{UNKNOWN_NET}'
    "Plan: 2 to add, 0 to change, 0 to destroy.\n"
    "Apply complete! Resources: 2 added, 0 changed, 0 destroyed.\n"
)
NO_MEMORY_FOR_O = (
    "No changes.\n"
    "error 26 at output.o: no memory\n"
    "Apply incomplete. Resources: 0 added, 0 changed, 0 destroyed.\n"
)
NET_NOT_WRITTEN = (
    f'+ sim_net.a\n    cidr = "x"\n{UNKNOWN_ID}'
    "Plan: 1 to add, 0 to change, 0 to destroy.\n"
    "Apply complete! Resources: 1 added, 0 changed, 0 destroyed.\n"
    "error: state not written\n"
)
