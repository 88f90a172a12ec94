"""The sort on a cluster (examples/dask) beside `pack --sort`: the same rows have the same root."""

import random
import subprocess
import tempfile
from pathlib import Path

EXAMPLE = Path(__file__).parent.parent.parent / "examples" / "dask" / "build_tree.py"

INTERPRETER = "/usr/bin/python3"
"""The interpreter of the system, for which it has Dask."""

ROWS = 200_000
TABLES = 3


def all_runs(program, _):
    """One run, where Dask is there."""
    name = f"{ROWS} rows sorted by two workers"
    if subprocess.run([INTERPRETER, "-c", "import dask, distributed"], capture_output=True, check=False).returncode != 0:
        print(f"SKIPPED {name}: {INTERPRETER} has no Dask (Debian's python3-dask and python3-distributed)")
        return
    with tempfile.TemporaryDirectory() as folder:
        yield name, differences(program, Path(folder))


def differences(program, folder):
    """How the roots differ."""
    rows = some_rows()
    for place in range(TABLES):
        (folder / f"{place}.tsv").write_bytes(b"".join(key + b"\t" + value + b"\n" for key, value in rows[place::TABLES]))
    tables = [f"{place}.tsv" for place in range(TABLES)]
    words = [INTERPRETER, str(EXAMPLE), "--prolly", program, "cluster.prl", *tables]
    by_cluster = subprocess.run(words, cwd=folder, capture_output=True, text=True, check=False)
    by_sort = subprocess.run(
        ["bash", "-o", "pipefail", "-c", 'cat *.tsv | "$0" pack --sort --text rows.rec && "$0" build sort.prl rows.rec', program],
        cwd=folder,
        capture_output=True,
        text=True,
        check=False,
    )
    for name, done in (("the cluster", by_cluster), ("pack --sort", by_sort)):
        if done.returncode != 0:
            return [f"{name}: status {done.returncode}, {done.stderr[-300:]!r}"]
    if by_cluster.stdout != by_sort.stdout.splitlines(keepends=True)[-1]:
        return [f"the cluster: {by_cluster.stdout!r}, pack --sort: {by_sort.stdout!r}"]
    left = sorted(path.name for path in folder.iterdir())
    wanted = sorted([*tables, "rows.rec", "cluster.prl", "sort.prl"])
    return [] if left == wanted else [f"{left} are there, wanted {wanted}"]


def some_rows():
    """Rows with keys of many lengths, in no order, of which no two are the same."""
    numbers = random.Random(29)
    keys = {}
    while len(keys) < ROWS:
        keys[b"%x" % numbers.getrandbits(numbers.randrange(8, 80))] = None
    return [(key, b"%d" % len(key)) for key in keys]
