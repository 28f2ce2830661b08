"""The environment in which the gate runs the prover, to save processor time: one job for each check and one check for each processor,
because each job of a check loads the crates below again; an allocator that keeps freed memory, which halves the page faults; and large
pages (large_pages.c), which save some 4 %. None of it changes what is proved: `rt ci` by itself does the same without."""
import contextlib
import os
import subprocess
import tempfile

from tests.harness.shims import PAGES, built


def preloads(folder):
    """Returns the libraries to load before a program. If large_pages.c cannot be compiled, only those that were asked for anyway."""
    asked_for = os.environ.get("LD_PRELOAD", "")
    try:
        return f"{built(PAGES, folder)} {asked_for}".rstrip()
    except (OSError, subprocess.CalledProcessError):
        return asked_for


@contextlib.contextmanager
def prover_environment():
    """Yields the environment. The library with large pages exists until the block ends."""
    with tempfile.TemporaryDirectory() as folder:
        jobs = str(len(os.sched_getaffinity(0)))
        yield {"RT_JOBS": jobs, "MIMALLOC_PURGE_DELAY": "-1", **os.environ, "LD_PRELOAD": preloads(folder)}
