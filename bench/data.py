#!/usr/bin/env python3
"""data.py EDGES FOLDER: the data and the seed of a run of examples/edges with so many edges and two time steps."""
import json, os, sys

m, folder = int(sys.argv[1]), sys.argv[2]
n = m // 2 + 2
data = {
    "n": n,
    "m": m,
    "q": 2,
    "a": [1 + 7 * e % n for e in range(1, m + 1)],
    "b": [1 + (11 * e + 3) % n for e in range(1, m + 1)],
    "u": [1 + i % 5 for i in range(1, n + 1)],
    "r": [0] * n,
}
for name, content in (("data", data), ("seed", {"u": list(range(1, n + 1))})):
    with open(os.path.join(folder, f"{name}.json"), "w") as file:
        json.dump(content, file, separators=(",", ":"))
