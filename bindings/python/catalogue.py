"""A catalogue: the tables of a folder of presentation texts, built, checked and written.

    python3 catalogue.py GROUPS TABLES                    on all cores of this machine
    python3 catalogue.py GROUPS TABLES --workers 1        on so many
    python3 catalogue.py GROUPS TABLES --dask ADDRESS     on the workers of a Dask scheduler

Every file NAME.txt in the folder GROUPS is a presentation text. The folder TABLES gets NAME.table, its table text, and index.csv with a
line for each text: name, answer, order, lines, and the SHA-256 of the table text. A refused text has its number as answer and no
table. The lines stand by name, so two runs over the same texts leave the same files, byte for byte, wherever they ran.

On Dask each worker finds this file and chieftables.py in its Python path, and the shared object where CHIEFTABLES_SO says.
"""

import argparse
import hashlib
import math
import os
import sys
import time
from concurrent.futures import ProcessPoolExecutor

import chieftables

AT_ONCE = 32
"""Texts that a worker is given at a time."""


def entry(text):
    """The answer to a text, the order of its group, and its table text: built, checked and written."""
    try:
        words = chieftables.build_packed(text)
        chieftables.check(text, words)
        table = chieftables.write_table(words)
    except chieftables.Refusal as refusal:
        return refusal.number, 0, b""
    lines = [line.split() for line in text.splitlines()[1:]]
    return 0, math.prod(int(line[2]) for line in lines if line[0] == line[1]), table


def entries(texts):
    """The same for several texts."""
    return [entry(text) for text in texts]


def parts(names, folder):
    """The texts of the files, some at a time."""
    for start in range(0, len(names), AT_ONCE):
        part = []
        for name in names[start : start + AT_ONCE]:
            with open(os.path.join(folder, name + ".txt"), "rb") as file:
                part.append(file.read())
        yield part


def on_this_machine(names, folder, workers):
    """The entries, in the order of the names, by processes on this machine."""
    with ProcessPoolExecutor(workers) as pool:
        for part in pool.map(entries, parts(names, folder)):
            yield from part


def on_dask(names, folder, address):
    """The same by the workers of a scheduler."""
    from distributed import Client

    with Client(address) as client:
        for future in client.map(entries, list(parts(names, folder)), pure=False):
            yield from future.result()


def bar(done, count, start):
    """Shows how far it is."""
    filled = 40 * done // max(1, count)
    spent = time.monotonic() - start
    sys.stderr.write(f"\r[{'#' * filled}{'.' * (40 - filled)}] {done} of {count}, {done / max(spent, 1e-9):.0f} a second ")
    sys.stderr.flush()


def catalogue(names, made, folder):
    """Writes the tables and the index; how many texts were refused."""
    os.makedirs(folder, exist_ok=True)
    start, shown, refused = time.monotonic(), 0.0, 0
    with open(os.path.join(folder, "index.csv"), "w", encoding="ascii") as index:
        index.write("name,answer,order,lines,sha256\n")
        for done, (name, (answer, order, table)) in enumerate(zip(names, made), 1):
            if answer == 0:
                with open(os.path.join(folder, name + ".table"), "wb") as file:
                    file.write(table)
            refused += answer != 0
            lines = max(0, table.count(b"\n") - 1)
            index.write(f"{name},{answer},{order},{lines},{hashlib.sha256(table).hexdigest()}\n")
            if time.monotonic() - shown > 0.2 or done == len(names):
                shown = time.monotonic()
                bar(done, len(names), start)
    spent = time.monotonic() - start
    sys.stderr.write("\n")
    print(f"{len(names)} texts, {refused} refused, {spent:.1f} s, {3600 * len(names) / spent:,.0f} an hour")
    return refused


def main():
    parser = argparse.ArgumentParser(description="The tables of a folder of presentation texts.")
    parser.add_argument("groups")
    parser.add_argument("tables")
    parser.add_argument("--workers", type=int, default=os.cpu_count())
    parser.add_argument("--dask", metavar="ADDRESS")
    options = parser.parse_args()
    names = sorted(name[:-4] for name in os.listdir(options.groups) if name.endswith(".txt"))
    if options.dask:
        made = on_dask(names, options.groups, options.dask)
    else:
        made = on_this_machine(names, options.groups, options.workers)
    catalogue(names, made, options.tables)


if __name__ == "__main__":
    main()
