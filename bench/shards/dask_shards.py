#!/usr/bin/python3
"""Scale 1 in 8 warehouses under Dask distributed: a scheduler and 4 workers, each a process of its own on the loopback address.

    /usr/bin/python3 bench/shards/dask_shards.py [SCALE [PARTS]]

Create, load, choose, upkeep, the partial reports of the thirteen queries and of a CUBE, merged, and each compared byte by byte with the
report of one warehouse of all rows. The worker that loads part 3 and the one that asks part 5 are killed in the middle, with the program
that they run; the scheduler gives the step to another worker. Seconds of each step are printed.

It needs Debian's python3-distributed, and the built program as crates/ssbcube/out/ssbcube, or in the folder that SSBCUBE_AT names.
"""
import ctypes
import os
import shutil
import signal
import subprocess
import sys
import tempfile
import time

from distributed import Client, as_completed, get_worker

ROOT = os.path.dirname(os.path.dirname(os.path.dirname(os.path.abspath(__file__))))
QUERIES = "1.1 1.2 1.3 2.1 2.2 2.3 3.1 3.2 3.3 3.4 4.1 4.2 4.3".split()
CUBE = ["--set", "cube", "--by", "c_nation,s_region,p_category,d_year", "--agg", "count,sum:revenue,min:quantity,max:profit,avg:discounted"]
KILL_ON_PARENT_DEATH = 1


def with_parent():
    """The program ends with the worker that runs it, as it does where a machine fails."""
    ctypes.CDLL("libc.so.6").prctl(KILL_ON_PARENT_DEATH, signal.SIGKILL)


def step(folder, killed, *words):
    """A step of a part. The first attempt of the one to be killed ends with its worker."""
    mark = f"{folder}/{'.'.join(words[:2])}.killed"
    running = subprocess.Popen(["step.sh", *words], cwd=folder, preexec_fn=with_parent, start_new_session=True)
    if ".".join(words[:2]) == killed and not os.path.exists(mark):
        time.sleep(0.3 if words[0] == "load" else 0.05)
        open(mark, "w").close()
        os.killpg(running.pid, signal.SIGKILL)
        os.kill(os.getpid(), signal.SIGKILL)
    if running.wait() != 0:
        raise RuntimeError(f"{' '.join(words)}: status {running.returncode}")
    return f"{words[1]} by {get_worker().name}"


def on_each(client, folder, parts, killed, name, *more):
    """Has a step done to each part, and waits."""
    before = time.monotonic()
    futures = [client.submit(step, folder, killed, name, str(part), *more, retries=3, pure=False) for part in range(1, parts + 1)]
    done = [future.result() for future in as_completed(futures)]
    print(f"parts, {name}: {1000 * (time.monotonic() - before):.0f} ms; {', '.join(sorted(done))}")


def output(folder, *words):
    return subprocess.run(["ssbcube", *words], cwd=folder, check=True, capture_output=True).stdout


def differing(folder, parts):
    """The reports whose merge is not the report of one warehouse."""
    wrong = []
    for name, words in [*((query, ["report", "whole.dev", query]) for query in QUERIES), ("cube", ["cube", "whole.dev", *CUBE])]:
        merged = output(folder, "merge", *(f"{part}.{name}.part" for part in range(1, parts + 1)))
        wrong += [name] * (merged != output(folder, *words))
    return wrong


def run(folder, scale, parts):
    os.mkdir(f"{folder}/tables")
    os.mkdir(f"{folder}/parts")
    output(folder, "generate", "--scale", scale, "tables")
    subprocess.run(["split", "-n", f"l/{parts}", "--numeric-suffixes=1", "-a", "1", "tables/lineorder.tbl", "parts/", "--additional-suffix=.tbl"],
                   cwd=folder, check=True)
    output(folder, "create", "whole.dev", "--tables", "tables", "--rows", "8000000")
    output(folder, "load", "whole.dev", "--first", "1", "--quiet", "tables/lineorder.tbl")
    scheduler = subprocess.Popen(["/usr/bin/dask-scheduler", "--host", "127.0.0.1", "--port", "8786", "--no-dashboard"], stderr=subprocess.DEVNULL)
    workers = [subprocess.Popen(["/usr/bin/dask-worker", "tcp://127.0.0.1:8786", "--nthreads", "1", "--name", f"worker{number}", "--no-dashboard",
                                 "--local-directory", folder], stderr=subprocess.DEVNULL) for number in range(1, 5)]
    try:
        with Client("tcp://127.0.0.1:8786", timeout=60) as client:
            client.wait_for_workers(4)
            on_each(client, folder, parts, "load.3", "load")
            on_each(client, folder, parts, None, "cuboids")
            on_each(client, folder, parts, "ask.5", "ask", str(parts))
    finally:
        for process in [*workers, scheduler]:
            process.terminate()
    killed = [name for name in ("load.3", "ask.5") if os.path.exists(f"{folder}/{name}.killed")]
    before = time.monotonic()
    wrong = differing(folder, parts)
    print(f"killed in the middle: {', '.join(killed)}; 14 reports in {time.monotonic() - before:.1f} s, {len(wrong)} that differ from those of one warehouse")
    return len(wrong) + 2 - len(killed)


def main():
    scale, parts = (sys.argv[1:] + ["1", "8"][len(sys.argv) - 1:])[:2]
    os.environ["PATH"] = f"{os.environ.get('SSBCUBE_AT', ROOT + '/crates/ssbcube/out')}:{ROOT}/bench/shards:{os.environ['PATH']}"
    folder = tempfile.mkdtemp()
    try:
        sys.exit(run(folder, scale, int(parts)))
    finally:
        shutil.rmtree(folder)


if __name__ == "__main__":
    main()
