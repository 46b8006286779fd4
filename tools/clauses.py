"""Lists the clauses that stand, word for word, in the contracts of three or more functions of crates/*/src."""

import glob
import re
from collections import defaultdict

where = defaultdict(list)
for path in sorted(glob.glob("crates/*/src/**/*.rt", recursive=True)):
    name = None
    for number, line in enumerate(open(path).read().split("\n"), 1):
        function = re.match(r"\s*(pub(\(crate\))? )?(const )?fn (\w+)", line)
        if function:
            name = function.group(4)
        clause = re.match(r"\s*(ensures|requires)( \w+)? (\{.*\})", line)
        if clause:
            place = f"{path.replace('crates/', '').replace('/src', '')}:{number} {name}"
            where[clause.group(1) + " " + clause.group(3)].append(place)

found = sorted((item for item in where.items() if len(item[1]) > 2), key=lambda item: -len(item[1]))
for clause, places in found:
    print(f"{len(places)} {clause} | " + "; ".join(places))
print(f"found: {len(found)}")
