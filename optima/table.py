"""The table of optima: each function's file, optimum and certificate, the latter judged by ordercheck."""
import csv
import hashlib
import json
import os
import resource
import shutil
import subprocess
import sys

HERE = os.path.dirname(os.path.abspath(__file__))
TOP = os.path.dirname(HERE)
sys.path.append(f"{HERE}/../bindings/python")
from minorder._arguments import two_decimals  # noqa: E402
from minorder.benchmarks import aliases, entries, random_starts, textbook  # noqa: E402
from minorder.files import parts_of  # noqa: E402

KEPT_BELOW = 20_000
# families whose small certificates the gate judges, and the most inputs that it takes of the families that came later
KEPT_LATER = {"S-boxes", "74 series", "error-correcting codes", "lines and characters", "decimal digits", "processor parts"}
LATER_INPUTS = 12
CASES = "crates/worked_cases/data"
COLUMNS = [
    "family", "name", "aliases", "what", "inputs", "outputs", "file_order_nodes", "sifted_nodes", "optimum",
    "first_optimal_order", "sifted_order", "level_counts", "listed_sets", "pla_sha256", "certificate_sha256",
    "random_order_nodes", "optimal_orders", "most", "mean",
]


def run(*words):
    ran = subprocess.run(words, stdout=subprocess.PIPE, stderr=subprocess.PIPE, text=True)
    if ran.returncode:
        sys.exit(f"{' '.join(words)}: status {ran.returncode}: {ran.stderr}{ran.stdout}")
    return ran.stdout


def library():
    """The Python module over the library: that of ./libminorder, where these scripts are installed what the module finds."""
    if "MINORDER_LIBRARY" not in os.environ and os.path.exists(f"{TOP}/libminorder"):
        if subprocess.run([f"{TOP}/libminorder"], stdout=subprocess.DEVNULL).returncode:
            sys.exit("make.py: the library can't be built")
        os.environ["MINORDER_LIBRARY"] = f"{TOP}/lib/libminorder.so.1"
    sys.path.insert(0, f"{TOP}/bindings/python")
    import minorder
    try:
        minorder.levels(0, [0])
    except minorder.NoLibrary as error:
        sys.exit(f"make.py: {error}")
    return minorder


def sum_of(path):
    with open(path, "rb") as file:
        return hashlib.sha256(file.read()).hexdigest()


def write(path, content):
    os.makedirs(os.path.dirname(path), exist_ok=True)
    with open(f"{path}.part", "w") as file:
        file.write(content)
    os.replace(f"{path}.part", path)


def by_family():
    found = list(entries())
    families = list(dict.fromkeys(entry.family for entry in found))
    return sorted(found, key=lambda entry: families.index(entry.family))


def used():
    return sum(resource.getrusage(resource.RUSAGE_CHILDREN)[:2])


def measure(entry, programs, room):
    """An entry's line of the table, with its files in the room; a line that lies there already
    stays if it is of the same file."""
    pla, cert, kept = (f"{room}/{entry.name}.{ending}" for ending in ("pla", "cert", "json"))
    write(pla, entry.pla())
    if os.path.exists(kept):
        with open(kept) as file:
            row = json.load(file)
        if row.get("pla_sha256") == sum_of(pla):
            return dict(row, aliases=" ".join(aliases.of(entry.name)))
    start = used()
    told = parts_of(run(programs.minorder, "--workers", str(programs.workers), "--cert", cert, pla))
    between = used()
    verdict = run(programs.ordercheck, pla, cert).strip()
    if verdict != f"valid {told['nodes']}":
        sys.exit(f"{entry.name}: {verdict}, and {told['nodes']} nodes")
    with open(cert) as file:
        listed = next(line.split()[1] for line in file if line.startswith("cells "))
    sizes = [told["file order nodes"], told["sifted nodes"], told["nodes"]]
    orders = [told["order"], told["sifted order"], told["levels"]]
    shape = [len(entry.inputs), entry.outputs]
    names = [entry.family, entry.name, " ".join(aliases.of(entry.name)), entry.words]
    values = [*names, *shape, *sizes, *orders, listed, sum_of(pla), sum_of(cert)]
    row = dict(zip(COLUMNS, map(str, values)), seconds=[between - start, used() - between])
    write(kept, json.dumps(row, allow_nan=False))
    return row


def random_order_nodes(entry, minorder):
    """The nodes under each random order."""
    starts = [order for _, order in random_starts(len(entry.inputs))]
    tables = entry.tables() if starts else ()
    return " ".join(str(sum(minorder.levels(tables, order))) for order in starts)


def order_figures(entry, minorder):
    """Of all orders: how many have the fewest nodes, the most nodes, and the mean to two decimals, a half rounded up."""
    found = minorder.orders(entry.tables(), len(entry.inputs))
    return {"optimal_orders": found.optimal, "most": found.most, "mean": two_decimals(found.mean)}


def is_kept(row, room):
    later = row["family"] in KEPT_LATER and int(row["inputs"]) <= LATER_INPUTS
    return (later or row["family"] in textbook_families()) and os.path.getsize(f"{room}/{row['name']}.cert") < KEPT_BELOW


def textbook_families():
    return {entry.family for entry in textbook.entries()}


def keep(rows, room, into):
    """Keeps the small certificates with their files, and the cases of the gate."""
    shutil.rmtree(f"{into}/{CASES}/optima", ignore_errors=True)
    os.makedirs(f"{into}/{CASES}/optima")
    cases = [
        "# The certificates that the table of optima keeps, judged by ordercheck. "
        "optima/make.py makes this file and the folder."
    ]
    for row in rows:
        name = row["name"]
        if is_kept(row, room):
            for ending in ("pla", "cert"):
                shutil.copyfile(f"{room}/{name}.{ending}", f"{into}/{CASES}/optima/{name}.{ending}")
            call = f"call ordercheck optima/{name}.pla optima/{name}.cert"
            cases.append(f"\ncase {name}\n{call}\nstatus 0\noutput\n|valid {row['optimum']}")
    write(f"{into}/{CASES}/optima.cases", "\n".join(cases) + "\n")


def make(programs):
    """Measures all functions, those first that are done soonest, and writes the table and what the gate judges."""
    minorder, room = library(), f"{programs.room}/table"
    os.makedirs(room, exist_ok=True)
    found, rows = by_family(), {}
    for i, entry in enumerate(sorted(found, key=lambda it: (len(it.inputs), it.outputs)), 1):
        print(f"{entry.name}: {i} of {len(found)}", file=sys.stderr)
        of_orders = {"random_order_nodes": random_order_nodes(entry, minorder), **order_figures(entry, minorder)}
        rows[entry.name] = {**measure(entry, programs, room), **of_orders}
    ordered = [rows[entry.name] for entry in found]
    os.makedirs(f"{programs.into}/optima", exist_ok=True)
    with open(f"{programs.into}/optima/optima.csv", "w", newline="") as file:
        table = csv.DictWriter(file, COLUMNS, lineterminator="\n", extrasaction="ignore")
        table.writeheader()
        table.writerows(ordered)
    keep(ordered, room, programs.into)


def read(into):
    with open(f"{into}/optima/optima.csv", newline="") as file:
        return list(csv.DictReader(file))
