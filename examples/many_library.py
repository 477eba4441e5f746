"""Plays scripts by the library for C, in worker processes on this host. A module for many; it isn't run by itself."""
import argparse
import json
import multiprocessing
import multiprocessing.connection
import os
import shutil
import signal
import sys
import time

from many_scripts import Fault, Told, named_in, read

HERE = os.path.dirname(os.path.realpath(__file__))
# An installation has the package for Python beside this, or a folder above, as the clone has.
sys.path[:0] = [os.path.join(HERE, "python"), os.path.join(HERE, "..", "python")]
from p11 import Failed, Machine  # noqa: E402 (found by the line above)

# The file of the results that has a line for each script that is played.
RECORDS = "records.jsonl"
# The most scripts that a worker gets at a time.
SHARE = 100
# The longest file that p11 mounts or loads.
LONGEST = 16_773_120
# p11's exit statuses for those of the library.
STATUSES = {1: 3, 2: 2, 5: 1}


def sizes(words):
    """The machine's sizes, of p11's options."""
    parser = argparse.ArgumentParser(prog="p11-many --library .. --", add_help=False)
    parser.add_argument("--memory", type=int, default=28)
    parser.add_argument("--lines", type=int, default=1024)
    found = parser.parse_args(words)
    try:
        Machine(found.memory, found.lines).close()
    except (Failed, OSError) as cause:
        raise Fault(cause) from None
    return found.memory, found.lines


def write(path, held):
    with open(path, "wb") as file:
        file.write(held)


def is_readable(path):
    """Whether p11 mounts or loads a file."""
    return os.path.isfile(path) and os.path.getsize(path) <= LONGEST or path == os.devnull


def inputs(work, script, names):
    """The files that a script reads, by their names."""
    found = {name: work.input(script, name) for name in names}
    return {name: read(path) for name, path in found.items() if is_readable(path)}


def keep(work, script, given, saved):
    """Writes the files that a script has saved, where they are new or differ. Why one can't be written, if its name is the cause."""
    for name, held in saved.items():
        if held is not None and held != given.get(name):
            place = work.result(script, "files", name)
            try:
                os.makedirs(os.path.dirname(place), exist_ok=True)
                write(place, held)
            except (FileExistsError, IsADirectoryError, NotADirectoryError) as cause:
                return f"saves {name}, which can't be written: {cause.strerror}"
    return None


def play(work, script, size, told):
    """Plays a script, if the files that it names are there: its record, a line."""
    reads, writes = named_in(work.script(script))
    fault = work.fault_of_names(script, reads, writes)
    if fault:
        told.not_played(script, fault)
        return ""
    given, saved, status, answers, errors = inputs(work, script, reads), {}, 0, b"", ""
    shutil.rmtree(work.result(script), ignore_errors=True)
    began = time.monotonic()
    try:
        with Machine(*size) as machine:
            for name, held in given.items():
                machine.put_file(name, held)
            answers = machine.script(read(work.script(script)))
            saved = {name: machine.file(name) for name in writes}
    except Failed as cause:
        status, errors = STATUSES.get(cause.number, cause.number), str(cause)
    seconds = time.monotonic() - began
    fault = keep(work, script, given, saved)
    if fault:
        status, errors = 1, fault
    record = {"script": script.path, "status": status, "seconds": round(seconds, 6), "answers": answers.decode("latin-1")}
    told.is_played(script, work.fault_of_answers(script, status, errors, answers), work.refusals(script, answers))
    return json.dumps({**record, "errors": errors} if errors else record) + "\n"


def play_share(work, scripts, size):
    """Plays scripts. Each second and at the end: how many, their records, what became of them, and whether it's the end."""
    count, records, told, began = 0, [], Told(), time.monotonic()
    for script in scripts:
        count += 1
        records.append(play(work, script, size, told))
        is_last = script is scripts[-1]
        if is_last or time.monotonic() - began > 1:
            yield count, "".join(records), told, is_last
            count, records, told, began = 0, [], Told(), time.monotonic()


def work_on(work, size, pipe, others):
    """A worker: plays the shares of scripts that it is given, and tells what comes of them."""
    signal.signal(signal.SIGINT, signal.SIG_IGN)
    signal.signal(signal.SIGTERM, signal.SIG_DFL)
    for other in others:
        other.close()
    try:
        while True:
            for part in play_share(work, pipe.recv(), size):
                pipe.send(part)
    except (EOFError, BrokenPipeError):
        # what has started this is gone
        pass
    except OSError as cause:
        pipe.send(Fault(cause))


class Progress:
    """How many are done, on a terminal, with the time that is left."""

    def __init__(self, count):
        self.count, self.began, self.shown = count, time.monotonic(), 0

    def show(self, done, failed):
        now = time.monotonic()
        if sys.stderr.isatty() and (now - self.shown > 1 or done == self.count):
            self.shown, left = now, (now - self.began) / done * (self.count - done)
            print(f"\r{done} of {self.count}, {failed} failed, {left:.0f} s left \033[K", end="\n" if done == self.count else "",
                  file=sys.stderr, flush=True)


def start(work, size, count):
    """So many workers, each with the pipe to it."""
    workers = {}
    for _ in range(count):
        ours, its = multiprocessing.Pipe()
        words = (work, size, its, [ours, *workers])
        workers[ours] = multiprocessing.get_context("fork").Process(target=work_on, args=words, daemon=True)
        workers[ours].start()
        its.close()
    return workers


def answer(worker, pipe):
    """What a worker tells."""
    try:
        told = pipe.recv()
    except EOFError:
        worker.join()
        raise Fault(f"a worker has ended with status {worker.exitcode}; --resume goes on") from None
    if isinstance(told, Fault):
        raise told
    return told


def earlier(work, scripts, told):
    """Those of the scripts that have no record yet, and what became of the others; a record that was cut off is taken away."""
    by_path, path = {script.path: script for script in scripts}, os.path.join(work.results, RECORDS)
    with open(path, "ab+") as file:
        file.seek(0)
        whole = 0
        for line in file:
            if not line.endswith(b"\n"):
                break
            whole += len(line)
            record = json.loads(line)
            script = by_path.pop(record["script"], None)
            if script:
                answers = record["answers"].encode("latin-1")
                fault = work.fault_of_answers(script, record["status"], record.get("errors", ""), answers)
                told.is_played(script, fault, work.refusals(script, answers))
        file.truncate(whole)
    return list(by_path.values())


def play_all(work, scripts, jobs, rest):
    """Plays those that have no record yet, with these options of p11, and tells what became of all."""
    size, told = sizes(rest), Told()
    scripts = earlier(work, scripts, told)
    count, done = min(jobs or os.cpu_count(), len(scripts)), 0
    share = min(SHARE, len(scripts) // (8 * count or 1) + 1)
    shares = (scripts[at:at + share] for at in range(0, len(scripts), share))
    workers, progress = start(work, size, count), Progress(len(scripts))
    for pipe, first in zip(workers, shares):
        pipe.send(first)
    with open(os.path.join(work.results, RECORDS), "a") as file:
        while done < len(scripts):
            for pipe in multiprocessing.connection.wait(list(workers)):
                played, records, of_these, is_last = answer(workers[pipe], pipe)
                file.write(records)
                file.flush()
                done += played
                told.join(of_these)
                progress.show(done, len(told.failed))
                following = next(shares, None) if is_last else None
                if following:
                    pipe.send(following)
    return told
