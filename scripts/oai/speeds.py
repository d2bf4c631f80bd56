"""Measures parts of the programs alone: the pool of pages, the store, and the journal. Each is a program of scripts/tools, which is proved and built."""

import os
import subprocess

from oai.tools import Tool


def measured(name):
    """Proves, builds and runs a program; the status."""
    with Tool(name, built=True) as tool:
        return tool.rt("run")


def pool_speed():
    """Measures the pool of pages.

    A program is made in a copy of oai_device and oai_pool, proved, built and run; it prints for each kind of call how
    many were made and how many nanoseconds one took. Files lie in the copy, so they stand in the system's page cache.
    It judges nothing. It takes some three gigabytes of memory. COPY is a folder for the copy, which then stays: for
    other tools to look at.
    """
    return measured("pool_speed")


def store_speed():
    """Measures the store of pages alone.

    A program is made in a copy of oai_paged and of what it stands on, proved, built and run. For 1,000, 10,000 and
    100,000 items, over memory and over a file, with a cache of 4,096 pages, it prints for each kind of call how many
    were made and how many nanoseconds one took by the clock, and after the load how many pages are named and how full
    they are. Files lie in the copy, so they stand in the system's page cache. It judges nothing. It takes some gigabyte
    of memory. COPY is a folder for the copy, which then stays: for other tools to look at.
    """
    return measured("store_speed")


def journal_speed():
    """Measures a journal in a file.

    A program is made in a copy of oai_journal, proved, built and run. It commits 2,000 groups of one small record, and
    200 of one record of 800,000 bytes; writes 1,000,000 small records in groups of 500, and reads them back. It prints
    for each how many calls were made, and how many microseconds they took in all. Each commit of records makes two
    syncs, one of none makes none. The file lies in FOLDER, or in the copy: what a sync costs is that of its disk. It
    judges nothing.
    """
    place = os.environ.get("FOLDER")
    if not place:
        return measured("journal_speed")
    with Tool("journal_speed", built=True) as tool:
        tool.rt("run", output=os.devnull)
        return subprocess.run([tool.folder / "out/journal_speed"], cwd=place, check=False).returncode
