"""Prints the text of a state of a shape, with about the given number of MB."""
import json
import random
import sys

shape, megabytes = sys.argv[1], int(sys.argv[2])
random.seed(1)


def record(number):
    attributes = {"cidr": "10.0.%d.0/24" % (number % 256), "id": "net-%d" % number, "tag": None, "size": number}
    found = {"attributes": attributes, "schema_version": 0}
    if shape == "dependent":
        found["dependencies"] = ["sim_net.n%d" % n for n in random.sample(range(4000), 40)]
    if shape == "values":
        found["attributes"]["list"] = [{"deep": [[n, True, None, "text"]]} for n in range(30)]
    return found


size = {"counted": 320, "named": 350, "dependent": 1300, "values": 6900}[shape]
records = megabytes * 1000000 // size
resources = 4 if shape == "counted" else 4000
result = []
for place in range(resources):
    instances = []
    for number in range(records // resources):
        one = record(number)
        one["index_key"] = "key-%d" % number if shape == "named" else number
        instances.append(one)
    random.shuffle(instances)
    result.append({"mode": "managed", "type": "sim_net", "name": "n%d" % place, "provider": "p", "instances": instances})
random.shuffle(result)
json.dump({"version": 4, "serial": 1, "lineage": "L", "terraform_version": "1.0.0", "outputs": {}, "resources": result}, sys.stdout)
