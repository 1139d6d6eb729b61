"""What `nonograde-shards` takes beside the surveys of its shards."""

import os
import resource
import subprocess
import tempfile
from pathlib import Path

from puzzles import TOP, drawn
from running import seconds, survey_words
from tables import Table, figure

# The script's own collection is made of so many entries, repeated.
ENTRIES, TIMES = 10_000, 20
SCRIPT = TOP / "bin/nonograde-shards"


def processor_time(run):
    """Returns the processor time, user and system, of the processes that a run starts."""

    def taken():
        used = resource.getrusage(resource.RUSAGE_CHILDREN)
        return used.ru_utime + used.ru_stime

    begun = taken()
    run()
    return taken() - begun


def shards(program):
    """The processor time of `nonograde-shards`, by both awks."""
    with tempfile.TemporaryDirectory() as folder:
        folder = Path(folder)
        collection, run = folder / "collection.txt", folder / "run"
        collection.write_bytes(drawn("pictures", 20, ENTRIES) * TIMES)
        subprocess.run([SCRIPT, "--cut", "--dir", run, collection], stdout=subprocess.DEVNULL, check=True)
        paths = sorted(run.glob("[0-9]*.txt"))

        def survey_each():
            for path in paths:
                seconds(survey_words(program), path)

        def survey_by(awk):
            (folder / awk).mkdir(exist_ok=True)
            os.symlink(f"/usr/bin/{awk}", folder / awk / "awk")
            surroundings = {**os.environ, "PATH": f"{folder / awk}:{os.environ['PATH']}", "NONOGRADE": program}
            words = [SCRIPT, collection, "--jobs", "4"]
            subprocess.run(words, stdout=subprocess.DEVNULL, check=True, env=surroundings)

        times = [processor_time(survey_each), *(processor_time(lambda: survey_by(awk)) for awk in ("mawk", "gawk"))]
    head = ["seconds of processor time", f"{len(paths)} surveys one by one", "`nonograde-shards` with mawk", "with gawk"]
    return [Table(head, [[f"{ENTRIES * TIMES:,} pictures of 20 by 20", *map(figure, times)]])]
