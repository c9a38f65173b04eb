"""The layers of crates: the kept picture is what tools/layers.py makes of crates.txt, and README.md lists the crates bottom up."""
import re
import subprocess
import sys
import tempfile

CRATES = "crates.txt"
KEPT = "docs/layers.svg"
PAGE = "README.md"


def text_of(path):
    with open(path, encoding="utf-8") as file:
        return file.read()


def picture(crates):
    """What the script makes of a list of crates."""
    with tempfile.NamedTemporaryFile("w", encoding="utf-8") as file:
        file.write(crates)
        file.flush()
        done = subprocess.run([sys.executable, "tools/layers.py", file.name], capture_output=True, text=True, check=False)
    return done.stdout + done.stderr


def uses(crates):
    """The crates, each with what it names."""
    lines = (line.split("#")[0].partition(":") for line in crates.splitlines())
    return {name.split()[0]: set(rest.split()) for name, _, rest in lines if name.strip()}


def listed(page):
    """The crates of the page's table, in its order."""
    part = page.partition("\n## Layers\n")[2].partition("\n## ")[0]
    return re.findall(r"^\| `(\w+)` \|", part, re.M)


def faults(page, crates):
    """What is wrong with the table: a crate that is missing, is none or is said twice, or stands before one that it uses."""
    names, named = listed(page), uses(crates)
    yield from (f"{name} has no row" for name in named if name not in names)
    for n, name in enumerate(names):
        if name not in named or name in names[:n]:
            yield f"{name} is no crate, or has a row already"
        else:
            yield from (f"{name} stands before {x}, which it uses" for x in names[n + 1 :] if x in named[name])


def checked():
    """Counts of what passed and failed. Each is tried: a crate renamed gives another picture, and a row taken out or moved to the top is reported."""
    crates, page = text_of(CRATES), text_of(PAGE)
    results = [(f"{KEPT} is not what tools/layers.py makes of {CRATES}; make it anew: tools/layers.py > {KEPT}", picture(crates) == text_of(KEPT))]
    now = set(faults(page, crates))
    results += [(f"{PAGE}: {fault}", False) for fault in sorted(now)]
    for name, used in uses(crates).items():
        results.append((f"{name} renamed gives the same picture", picture(re.sub(rf"\b{name}\b", name + "2", crates)) != picture(crates)))
        row = re.search(rf"^\| `{name}` \|[^\n]*\n", page, re.M)
        if row:
            without = page.replace(row.group(), "")
            results.append((f"{PAGE} without a row for {name} is not reported", bool(set(faults(without, crates)) - now)))
            top = without.replace("| crate | what is in it |\n|---|---|\n", f"| crate | what is in it |\n|---|---|\n{row.group()}")
            results.append((f"{PAGE} with {name} at the top is not reported", bool(set(faults(top, crates)) - now) or not used & set(listed(page))))
    for what, good in results:
        if not good:
            print(f"manual: {what}")
    return sum(good for _, good in results), sum(not good for _, good in results)
