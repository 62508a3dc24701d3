"""Prints a configuration with COUNT instances: SHAPE COUNT. SHAPE COUNT CHANGE prints two configurations, with a line
between them: the one that is applied first, and the one that is applied after it.

independent    hosts that refer to nothing, each with an argument that has to be evaluated
counted        hosts of one resource, by their number
chains         chains of a hundred hosts, each of which names the one before it
layers         eight layers of hosts, each of which names ten of the layer before it
pairs          half of the hosts after all of the other half, by `depends_on`
indexed        the same, but each names one of the other half by its index
locals         hosts that name the last of 64 locals, each of which names the one before it twice
part           hosts each of which names a part of one local, whose value takes 900 KB in all

nothing        the same twice
updated        another size of each host
replaced       another name of each host, which is destroyed and then created
swapped        the same, but each new host is created before the old one is destroyed
destroyed      no host
"""
import json
import sys


CHANGE = sys.argv[3] if len(sys.argv) > 3 else None
NAME, ADDED, MORE = "host", 1, {"lifecycle": {"create_before_destroy": True}} if CHANGE == "swapped" else {}


def host(number, **more):
    return {"name": f"{NAME}-{number}", "size": "${%d + %d}" % (ADDED, number % 50), **MORE, **more}


def of_hosts(hosts, **more):
    return {"resource": {"sim_host": hosts}, **more}


def after(number, *others):
    return host(number, net=" ".join("${sim_host.h%d.id}" % it for it in others))


def independent(count):
    return of_hosts({f"h{i}": host(i) for i in range(count)})


def chains(count):
    return of_hosts({f"h{i}": after(i, i - 1) if i % 100 else host(i) for i in range(count)})


def layers(count):
    width = count // 8

    def named(i):
        layer, place = divmod(i, width)
        return [(layer - 1) * width + (place + k) % width for k in range(10)]

    return of_hosts({f"h{i}": after(i, *named(i)) if i >= width else host(i) for i in range(width * 8)})


def halves(count, **second):
    return of_hosts({
        "first": {"count": count // 2, "name": "host-${count.index}", "size": 1},
        "second": {"count": count // 2, "name": "host-${count.index}", "size": 2, **second},
    })


def counted(count):
    return of_hosts({"h": {"count": count, "name": NAME + "-${count.index}", "size": ADDED, **MORE}})


def pairs(count):
    return halves(count, depends_on=["sim_host.first"])


def indexed(count):
    return halves(count, net="${sim_host.first[count.index].id}")


def locals_that_double(count):
    doubled = {f"l{i}": "${local.l%d + local.l%d}" % (i - 1, i - 1) for i in range(1, 64)}
    hosts = {f"h{i}": host(i, net="${local.l63}") for i in range(count)}
    return of_hosts(hosts, locals={"l0": -1, **doubled})


def part(count):
    table = {f"k{i}": [f"part-{i}", "%07d" % i * (900_000 // 7 // count)] for i in range(count)}
    hosts = {f"h{i}": host(i, net="${local.table.k%d[0]}" % i) for i in range(count)}
    return of_hosts(hosts, locals={"table": table})


SHAPES = {"independent": independent, "counted": counted, "chains": chains, "layers": layers, "pairs": pairs, "indexed": indexed, "locals": locals_that_double, "part": part}
shape, count = SHAPES[sys.argv[1]], int(sys.argv[2])
json.dump(shape(count), sys.stdout, indent=2)
if CHANGE:
    if CHANGE == "updated":
        ADDED = 2
    if CHANGE in ("replaced", "swapped"):
        NAME = "other"
    print("\n----")
    json.dump({} if CHANGE == "destroyed" else shape(count), sys.stdout, indent=2)
