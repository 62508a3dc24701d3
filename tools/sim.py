#!/usr/bin/env python3
"""The provider `sim` as another program: its types and its answers are those of the one that is compiled in (docs/PROVIDERS.md).

tools/same_sim compares the two, and bench/outside.sh times them.
"""
import os
import sys

sys.dont_write_bytecode = True
sys.path.insert(0, f"{os.path.dirname(os.path.realpath(__file__))}/../sdk/python")
from bixundor import Failed, provider, resource


def with_id(want, key, prefix):
    """Returns the wanted attributes with the id, which is made of the attribute at a key."""
    if not isinstance(want[key], str):
        raise Failed("malformed request")
    return {**want, "id": prefix + want[key]}


@resource("sim_net", cidr="string! force_new", tag="string", id="string computed")
class Net:
    def create(self, want):
        if want["cidr"] == "bad":
            raise Failed("refused")
        return self.update(None, want)

    def update(self, prior, want):
        made = with_id(want, "cidr", "net-")
        return {**made, "tag": "truth"} if want["tag"] == "lie" else made

    def destroy(self, prior):
        if prior["tag"] == "stuck":
            raise Failed("stuck")


@resource("sim_host", name="string! force_new", net="string", size="number", id="string computed")
class Host:
    def create(self, want):
        made = with_id(want, "name", "host-")
        if isinstance(want["size"], int) and want["size"] > 100:
            raise Failed("size too large")
        return made

    def update(self, prior, want):
        return self.create(want)

    def destroy(self, prior):
        pass


if __name__ == "__main__":
    provider(Net, Host)
