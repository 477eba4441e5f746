"""Plays scripts by the program p11, many at a time, by GNU parallel or as tasks of Slurm. A module for many; it isn't run by
itself."""
import os
import re
import shlex
import shutil
import subprocess
import sys
import tempfile

from many_scripts import Fault, Told, named_in, read

HERE = os.path.dirname(os.path.realpath(__file__))
# What a script's folder has until it is judged.
GIVEN = ("inputs", "script", "play", "p11")
# The name that a script's folder has for an empty pack, which p11 wouldn't find as /dev/null there, and where a line has that.
EMPTY = ".p11-many-empty"
OF_NULL = re.compile(rb"(?m)^([ \t]*(?:mount[ \t]+[0-7]+|load)[ \t]+)/dev/null(?=[ \t]|$)")
# The most tasks that Slurm takes in one array where it isn't set otherwise.
TASKS = 1000

PLAY = """#!/bin/sh
# play NAME, in the folder of the results: plays its script on links of its inputs, and leaves those files that differ then.
cd "$1" || exit 1
rm -rf files && { cp -al inputs files 2>/dev/null || { rm -rf files && cp -a inputs files; }; } || exit 1
began=$(date +%s%N)
(cd files && exec LIMIT ../p11 OPTIONS ../script) >answers 2>errors </dev/null
echo $? >status
ended=$(date +%s%N)
echo $(((ended - began) / 1000000)) | sed 's/^/000/; s/\\(...\\)$/.\\1/; s/^00*\\([0-9]\\)/\\1/' >seconds
(cd inputs && find . -type f -exec sh -c 'for it; do ! cmp -s "$it" "../files/$it" || rm -f "../files/$it"; done' - {} +)
find files -depth -type d -empty -delete
[ -s errors ] || rm -f errors
mkdir -p ../.played && : >"../.played/$1"
"""
# Runs a command, and ends it where this process ends in whatever way: from then on nobody holds the other end of the pipe WATCHED. Of two
# signals the first lets what is played come to its end, and the second doesn't; what is left then is killed.
GROUP = """
"$@" <&0 WATCHED<&- & playing=$!
(read -r _; kill -TERM "$playing"; kill -TERM "$playing"; sleep 5; kill -KILL 0) <&WATCHED >/dev/null 2>&1 & watching=$!
wait "$playing"
status=$?
kill -KILL "$watching"
exit "$status"
"""
SLURM = """#!/bin/sh
#SBATCH --job-name=p11-many
#SBATCH --array=1-{tasks}{most}
#SBATCH --output=/dev/null
cd {results} || exit 1
awk -v task="$SLURM_ARRAY_TASK_ID" 'NR % {tasks} == task % {tasks}' .left | while IFS= read -r name; do sh "$name/play" "$name"; done
"""


def find_program():
    """The program p11 itself: what the variable P11 names, the installed one, or the clone's."""
    named = os.environ.get("P11")
    if named:
        found = shutil.which(named)
        if not found:
            raise Fault(f"P11 names {named}, which can't be run")
        return found
    # this is in PREFIX/libexec/p11, or in PREFIX/share/doc/p11/examples
    for above in (".", "../../../../libexec/p11"):
        installed = os.path.realpath(os.path.join(HERE, above, "p11"))
        if os.path.isfile(installed):
            return installed
    build = os.path.join(os.path.dirname(HERE), "build")
    if not os.path.exists(build):
        raise Fault("no p11 is installed beside this command, and it's no clone's: P11 names the program")
    built = subprocess.run([build, "p11_run"], stdout=subprocess.PIPE, text=True)
    if built.returncode:
        raise Fault("the program can't be built")
    return built.stdout.strip()


def is_played(work, script):
    return os.path.exists(os.path.join(work.results, ".played", script.name))


def link(file, to):
    """The file under another name, by a link where that can be."""
    os.makedirs(os.path.dirname(to), exist_ok=True)
    try:
        os.link(os.path.realpath(file), to)
    except OSError:
        shutil.copy(file, to)


def script_of(work, script):
    """The lines that are played; an empty pack is a file of the folder, to which p11 is kept."""
    lines = read(work.script(script))
    if work.anywhere or not OF_NULL.search(lines):
        return lines
    with open(work.result(script, "inputs", EMPTY), "wb"):
        return OF_NULL.sub(rb"\1" + EMPTY.encode(), lines)


def options_of(work, rest):
    """The options of p11: these, and that which keeps it to the script's folder."""
    is_kept = not work.anywhere and not any(word.partition("=")[0] == "--files" for word in rest)
    return ["--files", ".", *rest] if is_kept else rest


def lay_out(work, script):
    """The folder of a script that is to be played, with all that it takes; whether it can be played."""
    shutil.rmtree(work.result(script), ignore_errors=True)
    reads, writes = named_in(work.script(script))
    if work.fault_of_names(script, reads, writes):
        return False
    # others are the host's
    reads, writes = ([name for name in names if not name.startswith("/")] for names in (reads, writes))
    for name in [".", *writes]:
        os.makedirs(work.result(script, "inputs", os.path.dirname(name)), exist_ok=True)
    for name in reads:
        if os.path.isfile(work.input(script, name)):
            link(work.input(script, name), work.result(script, "inputs", name))
    with open(work.result(script, "script"), "wb") as file:
        file.write(script_of(work, script))
    for name in ("play", "p11"):
        link(os.path.join(work.results, "." + name), work.result(script, name))
    return True


def version():
    """What the program p11 says of itself, on one line."""
    return subprocess.run([find_program(), "--version"], stdout=subprocess.PIPE, text=True, check=True).stdout.splitlines()[0]


def prepare(work, scripts, rest, seconds):
    """Lays out the scripts that aren't played yet, to be played with these options of p11, each for so many seconds at most (None: as
    long as it takes): those that can be."""
    os.makedirs(os.path.join(work.results, ".played"), exist_ok=True)
    for name in (".p11", ".play"):
        if os.path.exists(os.path.join(work.results, name)):
            os.unlink(os.path.join(work.results, name))
    shutil.copy(find_program(), os.path.join(work.results, ".p11"))
    with open(os.path.join(work.results, ".play"), "w") as file:
        limit = f"timeout -k 5 {seconds}" if seconds else ""
        file.write(PLAY.replace("OPTIONS", shlex.join(options_of(work, rest))).replace("LIMIT ", limit and limit + " "))
    return [script for script in scripts if not is_played(work, script) and lay_out(work, script)]


def hosts_of(path):
    try:
        with open(path) as file:
            hosts = [line.strip() for line in file if line.strip() and not line.startswith("#")]
    except OSError as cause:
        raise Fault(f"the hosts can't be read: {cause}") from None
    for host in hosts:
        if host.rpartition("/")[2] == ":":
            raise Fault(f"{path} names this host as `:`; give its name, by which ssh reaches it")
    if not hosts:
        raise Fault(f"{path} names no host")
    if not shutil.which("rsync"):
        raise Fault("rsync isn't here, by which files come to other hosts (Debian: apt-get install rsync)")
    return hosts


def ssh_words(sockets):
    """How other hosts are reached: a lost one is told after ten seconds, and one connection is used by all jobs."""
    words = shlex.split(os.environ.get("PARALLEL_SSH", "ssh"))
    settings = ("BatchMode=yes", "ConnectTimeout=10", "ServerAliveInterval=5", "ServerAliveCountMax=2", "ControlMaster=auto",
                f"ControlPath={sockets}/%C", "ControlPersist=20")
    return words + [word for setting in settings for word in ("-o", setting)]


def answering(hosts, ssh):
    """Those of the hosts that answer."""
    asked = [(host, subprocess.Popen([*ssh, host.rpartition("/")[2], "true"], stdin=subprocess.DEVNULL, stdout=subprocess.DEVNULL))
             for host in hosts]
    lost = [host for host, asking in asked if asking.wait()]
    if lost:
        print(f"p11-many: without {', '.join(lost)}, which can't be reached", file=sys.stderr)
    if len(lost) == len(hosts):
        raise Fault("no host answers; --resume goes on")
    return [host for host in hosts if host not in lost]


def parallel(work, left, jobs, hosts, ssh):
    """Plays these by GNU parallel, in the folder of the results."""
    words = ["parallel", "--will-cite", "--null", "--joblog", "+" + os.path.join(os.path.abspath(work.results), ".log")]
    if jobs:
        words += ["--jobs", str(jobs)]
    if sys.stderr.isatty():
        words.append("--bar")
    if hosts:
        words += ["--ssh", shlex.join(ssh), "--workdir", "...", "--transferfile", "{}", "--return", "{}", "--return", ".played/{}",
                  "--cleanup"]
        for host in answering(hosts, ssh):
            words += ["--sshlogin", host]
    names = "".join(script.name + "\0" for script in left)
    watched, held = os.pipe()
    group = GROUP.replace("WATCHED", str(watched))
    playing = subprocess.Popen(["bash", "-c", group, "play", *words, "sh {}/play {}"], stdin=subprocess.PIPE, text=True, cwd=work.results,
                               pass_fds=[watched], preexec_fn=os.setpgrp)
    os.close(watched)
    try:
        playing.communicate(names)
    finally:
        os.close(held)
        playing.wait()


def play(work, left, jobs, hosts):
    """Plays what is left, and what a lost host has left again, as long as that helps."""
    with tempfile.TemporaryDirectory() as sockets:
        before = None
        while left and len(left) != before:
            parallel(work, left, jobs, hosts, ssh_words(sockets))
            before, left = len(left), [script for script in left if not is_played(work, script)]


def clear(work, script):
    """Takes away what a played script's folder was given."""
    for place in (work.result(script, name) for name in GIVEN):
        if os.path.isdir(place):
            shutil.rmtree(place)
        elif os.path.exists(place):
            os.unlink(place)


def judge(work, scripts):
    """What became of these."""
    told = Told()
    for script in scripts:
        if is_played(work, script):
            clear(work, script)
            status, answers = int(read(work.result(script, "status"))), read(work.result(script, "answers"))
            errors = work.result(script, "errors")
            said = read(errors).decode("latin-1") if os.path.exists(errors) else ""
            told.is_played(script, work.fault_of_answers(script, status, said, answers), work.refusals(script, answers))
        else:
            told.not_played(script, work.fault_of_names(script, *named_in(work.script(script))))
    return told


def slurm(work, left, jobs):
    """The array job."""
    if not left:
        raise Fault("nothing is left to play")
    with open(os.path.join(work.results, ".left"), "w") as file:
        file.write("".join(script.name + "\n" for script in left))
    tasks = min(len(left), TASKS)
    return SLURM.format(tasks=tasks, most=f"%{jobs}" if jobs else "", results=shlex.quote(os.path.abspath(work.results)))
