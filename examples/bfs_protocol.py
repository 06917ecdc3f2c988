"""A self-stabilising BFS protocol, played on a network, and written as a trace for `plsdesk trace spt`.

    python3 examples/bfs_protocol.py NETWORK > STEPS

Each node keeps the root, its depth and a pointer, and acts on what it last heard from its neighbours.
"""

import json
import sys

# the text of the network, and the names beside it
names: dict[str, str] = json.load(open(sys.argv[1] + ".names", encoding="utf-8"))
neighbours: dict[str, list[str]] = {}
pointers: dict[str, str] = {}
for line in open(sys.argv[1], encoding="utf-8"):
    words = line.split()
    if words[0] == "node":
        node = names[words[1]]
        neighbours[node], pointers[node] = [], words[2]
    elif words[0] == "port":
        neighbours[node].append(names[words[1]])
nodes = list(neighbours)
pointer = {name: None if pointers[name] == "-" else neighbours[name][int(pointers[name])] for name in nodes}
root = next(name for name in nodes if pointer[name] is None)
depth = {name: 0 for name in nodes}
for name in nodes:
    above = name
    while above != root:
        above, depth[name] = pointer[above], depth[name] + 1
heard: dict[tuple[str, str], int] = {}
steps: list[dict] = []


def label(name: str, root_of: str) -> dict:
    return {name: {"root": root_of, "depth": depth[name], "dist": depth[name]}}


def act(name: str) -> dict:
    """A node goes below the neighbour of least depth, as far as it has heard."""
    pointer[name] = min(neighbours[name], key=lambda one: heard[name, one])
    depth[name] = heard[name, pointer[name]] + 1
    return {"states": {name: {"pointer": pointer[name]}}, "labels": label(name, root)}


def tell(name: str, *lost: str) -> list[list[str]]:
    """A node tells all its neighbours, but what it tells these is lost."""
    reached = [one for one in neighbours[name] if one not in lost]
    heard.update({(one, name): depth[name] for one in reached})
    return [[name, one] for one in reached]


def step(name: str, **said: object) -> None:
    steps.append({"name": name, **said})


step("all tell all", hears=[message for name in nodes for message in tell(name)])

# a crash: a node comes back, takes itself for the root, and has forgotten what it heard
depth["Houston"] = 0
step("Houston crashes", restarts=["Houston"], states={"Houston": {"pointer": None}}, labels=label("Houston", "Houston"))
step("Houston tells, Atlanta hears", hears=tell("Houston", "Los Angeles", "Kansas City"))
step("its neighbours tell Houston", hears=[[name, "Houston"] for name in neighbours["Houston"]])
heard.update({("Houston", name): depth[name] for name in neighbours["Houston"]})
step("Houston acts and tells all", **act("Houston"), hears=tell("Houston"))

# a link fails: its lower end goes below its own child, which does not hear of it
neighbours["Chicago"].remove("New York")
neighbours["New York"].remove("Chicago")
step("the link Chicago - New York fails", unlinks=[["Chicago", "New York"]], states={"New York": {"pointer": None}})
step("New York acts", **act("New York"))
step("what it tells is lost", sends=[["New York", "Washington", "lost"]])
step("New York tells again", hears=tell("New York"))
step("Washington acts and tells", **act("Washington"), hears=tell("Washington"))
step("New York acts and tells", **act("New York"), hears=tell("New York"))

json.dump(steps, sys.stdout, indent=1)
