#!/usr/bin/env python3
"""Runs examples/slurm/ on a Slurm of its own, and the Kubernetes recipe as far as it can be.

It starts `munged`, `slurmctld` and `slurmd` in a temporary folder, on the loopback, and ends them
when it is done. 16 parts of examples/mult_8.v are searched as a job array, with a budget that cuts
one of them short: the job that joins them runs nevertheless and says which part lacks a
certificate. The second call submits that part alone, without the budget, and the whole is joined
and accepted by `PROGRAM check`, with the worst delay of the search in one piece. A third call
submits no part. Then the same with an array of at most 6 tasks, as where there are more parts than
a site's MaxArraySize.

Before all that, submit.sh runs with each option of `worst` that says what is asked, of
examples/c17.v, with a stand-in for Slurm that runs each job at once; and with parts that are cut
short and have certificates, which are joined, of examples/adder_8.v. A part that gets the signal of
its time limit ends with its figures, and a certificate.

The YAML of docs/MANY-MACHINES.md has to parse, and the command in it has to search its part under
`sh`. Where Slurm, munge or a reader of YAML isn't installed, it says so.
"""

import contextlib
import getpass
import json
import os
import re
import shutil
import signal
import socket
import subprocess
import sys
import time

from bridging.designs import exact
from lib import check, places, reports
from lib.questions import ASKED
from lib.running import end_all, run

NETLIST = os.path.join(places.TOP, "examples", "mult_8.v")
SUBMIT = os.path.join(places.TOP, "examples", "slurm", "submit.sh")
PAGE = os.path.join(places.TOP, "docs", "MANY-MACHINES.md")
PARTS = 16
# What cuts each part short.
SHORT = ["--strategy", "least", "--budget", "0"]
# The daemons and the client commands stand here too.
os.environ["PATH"] += ":/usr/sbin:/sbin"
NEEDS = ("munged", "mungekey", "slurmctld", "slurmd", "sbatch", "squeue", "scontrol")
# The longest that jobs may take, in seconds.
LONGEST = 240

# Stand-ins for two commands of Slurm: a job's tasks run one after another, at once.
STAND_INS = {
    "scontrol": "#!/bin/sh\necho 'MaxArraySize = 3'\n",
    "sbatch": """#!/bin/sh
for word; do
    case $word in
    --array=*) array=${word#--array=} ;;
    --*) ;;
    *) job=$word ;;
    esac
done
for place in $(echo "${array%%%*}" | tr , ' '); do
    SLURM_ARRAY_TASK_ID=$place bash "$job" > part.log 2>&1
done
[ -n "$array" ] || bash "$job" > join.log 2>&1
echo 1
""",
}

CONFIGURATION = """ClusterName=tdelay
SlurmctldHost={host}(127.0.0.1)
SlurmctldPort={ports[0]}
SlurmdPort={ports[1]}
AuthType=auth/munge
AuthInfo=socket={folder}/munge.socket
CryptoType=crypto/munge
SlurmUser={user}
SlurmdUser={user}
StateSaveLocation={folder}/state
SlurmdSpoolDir={folder}/spool
SlurmctldPidFile={folder}/slurmctld.pid
SlurmdPidFile={folder}/slurmd.pid
SlurmctldLogFile={folder}/slurmctld.log
SlurmdLogFile={folder}/slurmd.log
ProctrackType=proctrack/pgid
TaskPlugin=task/none
JobAcctGatherType=jobacct_gather/none
SelectType=select/cons_tres
SelectTypeParameters=CR_Core
ReturnToService=2
MpiDefault=none
SwitchType=switch/none
SchedulerParameters=sched_min_interval=0,batch_sched_delay=0
MaxArraySize={largest}
NodeName={host} NodeAddr=127.0.0.1 CPUs={processors} RealMemory={memory} State=UNKNOWN
PartitionName=main Nodes={host} Default=YES MaxTime=INFINITE State=UP
"""


def free_ports(count):
    """Ports of the loopback that nothing listens on."""
    with contextlib.ExitStack() as stack:
        sockets = [stack.enter_context(socket.socket()) for _ in range(count)]
        for it in sockets:
            it.bind(("127.0.0.1", 0))
        return [it.getsockname()[1] for it in sockets]


class Slurm:
    """A Slurm of one node, in a folder of its own."""

    def __init__(self, folder, largest):
        self.folder, self.host, self.daemons = folder, socket.gethostname().split(".")[0], []
        for name in ("", "state", "spool"):
            os.makedirs(os.path.join(folder, name), exist_ok=True)
            os.chmod(os.path.join(folder, name), 0o755)
        processors = min(2, os.cpu_count() or 1)
        memory = os.sysconf("SC_PHYS_PAGES") * os.sysconf("SC_PAGE_SIZE") * 9 // 10 >> 20
        words = {
            "folder": folder,
            "memory": memory,
            "host": self.host,
            "user": getpass.getuser(),
            "ports": free_ports(2),
        }
        with open(os.path.join(folder, "slurm.conf"), "w", encoding="ascii") as file:
            file.write(CONFIGURATION.format(largest=largest, processors=processors, **words))
        self.environment = {**os.environ, "SLURM_CONF": os.path.join(folder, "slurm.conf")}

    def __enter__(self):
        place = lambda name: os.path.join(self.folder, name)
        run(["mungekey", "--create", f"--keyfile={place('munge.key')}"], self.folder)
        files = [
            f"--{what}-file={place('munge.' + what)}" for what in ("key", "log", "pid", "seed")
        ]
        try:
            self.start(
                "munged", "--foreground", "--force", f"--socket={place('munge.socket')}", *files
            )
            self.wait("munge", lambda: os.path.exists(place("munge.socket")))
            self.start("slurmctld", "-D")
            self.start("slurmd", "-D", "-N", self.host)
            self.wait(
                "an idle node", lambda: "idle" in self.client("sinfo", "-h", "-o", "%T").out.split()
            )
        except BaseException:
            self.stop()
            raise
        return self

    def __exit__(self, *_):
        self.stop()

    def start(self, *words):
        with open(os.path.join(self.folder, f"{words[0]}.out"), "w", encoding="utf-8") as out:
            how = {
                "stdin": subprocess.DEVNULL,
                "stdout": out,
                "stderr": out,
                "start_new_session": True,
            }
            self.daemons.append(
                subprocess.Popen(words, env=self.environment, **how)
            )  # pylint: disable=consider-using-with

    def stop(self):
        """Ends the daemons, the last one first."""
        for daemon in reversed(self.daemons):
            daemon.terminate()
            try:
                daemon.wait(timeout=15)
            except subprocess.TimeoutExpired:
                daemon.kill()
                daemon.wait()
        self.daemons.clear()

    def client(self, *words, folder=None, **environment):
        return run(words, folder or self.folder, env={**self.environment, **environment})

    def wait(self, what, there, seconds=60):
        """Waits until something is there."""
        end = time.monotonic() + seconds
        while not there():
            dead = [daemon.args[0] for daemon in self.daemons if daemon.poll() is not None]
            if dead or time.monotonic() > end:
                told = "".join(
                    self.log(name) for name in ("munged.out", "slurmctld.log", "slurmd.log")
                )
                raise RuntimeError(f"no {what}; {dead or 'nothing'} ended\n{told}")
            time.sleep(0.2)

    def log(self, name):
        path = os.path.join(self.folder, name)
        return run(["tail", "-n", "5", path]).out if os.path.exists(path) else ""

    def jobs_end(self):
        """Waits until no job is left."""
        self.wait("end of the jobs", lambda: not self.client("squeue", "-h").out.strip(), LONGEST)


def budget_for_all_but_one(tested):
    """The part that needs most nodes, and a budget that suffices for the others."""
    lines = tested.run(
        "parts", NETLIST, "--parts", str(PARTS), "--strategy", "lead"
    ).out.splitlines()
    nodes = {}
    for number, line in enumerate(lines, 1):
        ended = tested.run("worst", NETLIST, *line.split(), "--strategy", "lead")
        nodes[number] = int(re.search(r"^nodes (\d+)$", ended.out, re.M)[1])
    *_, second, most = sorted(nodes, key=nodes.get)
    if nodes[second] == nodes[most]:
        raise RuntimeError(f"two parts need {nodes[most]} nodes: choose other parts")
    return most, nodes[second]


def read(folder, name):
    path = os.path.join(folder, name)
    if not os.path.exists(path):
        return ""
    with open(path, encoding="utf-8") as file:
        return file.read()


def submitted(tested, slurm, folder, budget):
    """Calls submit.sh, and waits until all jobs have ended."""
    words = [SUBMIT, NETLIST, str(PARTS), "--strategy", "lead"]
    ended = slurm.client(*words, folder=folder, TDELAY=tested.program, BUDGET=str(budget or ""))
    if ended.status:
        tested.fault(f"submit.sh: {ended.status} {ended.err}")
    slurm.jobs_end()
    return ended


def expect(tested, what, right, folder):
    """A case."""
    if not right:
        names = ", ".join(sorted(os.listdir(folder)))
        tested.fault(f"{what}\n{read(folder, 'join.log')}\n{names}")
    tested.case("job array")


def arrays(tested, largest, short, budget):
    """One part cut short and taken again, on a Slurm whose arrays have numbers below `largest`."""
    whole = re.search(
        r"^exact (\d+)$", tested.run("worst", NETLIST, "--strategy", "lead").out, re.M
    )[1]
    work = os.path.join(tested.folder, f"work-{largest}")
    os.mkdir(work)
    with Slurm(os.path.join(tested.folder, f"slurm-{largest}"), largest) as slurm:
        submitted(tested, slurm, work, budget)
        expect(
            tested,
            f"one part, {short}, is cut short",
            f"parts without a certificate: {short}\n" in read(work, "join.log"),
            work,
        )
        expect(
            tested,
            "join.log says between",
            re.search(r"^between \d+ \d+$", read(work, "join.log"), re.M),
            work,
        )
        before = {
            name: os.stat(os.path.join(work, name)).st_mtime_ns
            for name in os.listdir(work)
            if name.endswith(".cert")
        }
        expect(tested, "all others have certificates", len(before) == PARTS - 1, work)
        submitted(tested, slurm, work, None)
        after = {name: os.stat(os.path.join(work, name)).st_mtime_ns for name in before}
        expect(tested, "the others aren't searched again", before == after, work)
        expect(
            tested,
            "join.log has the worst delay",
            f"unchecked {whole}\n" in read(work, "join.log"),
            work,
        )
        expect(
            tested, "join.log says accepted", f"accepted {whole}\n" in read(work, "join.log"), work
        )
        checked = tested.run("check", NETLIST, os.path.join(work, "whole.cert"))
        expect(tested, "the whole is accepted", checked.out.startswith(f"accepted {whole}\n"), work)
        logs = [name for name in os.listdir(work) if re.fullmatch(r"part-(\d+\+)?\d+\.log", name)]
        expect(tested, "a log for each part", len(logs) == PARTS, work)
        ended = submitted(tested, slurm, work, None)
        expect(
            tested, "nothing is left to search", "every part has a certificate" in ended.err, work
        )
        other = slurm.client(SUBMIT, NETLIST, "3", folder=work, TDELAY=tested.program)
        expect(
            tested,
            "another question is refused",
            other.status == 1 and "another question" in other.err,
            work,
        )


def asked(tested):
    """Cases: submit.sh with each option that says what is asked, and with a stand-in for Slurm."""
    folder = os.path.join(tested.folder, "stand-ins")
    os.mkdir(folder)
    for name, text in STAND_INS.items():
        with open(os.path.join(folder, name), "w", encoding="ascii") as file:
            file.write(text)
        os.chmod(os.path.join(folder, name), 0o755)
    environment = {**os.environ, "PATH": f"{folder}:{os.environ['PATH']}"}
    environment["TDELAY"] = tested.program
    netlist = places.example("c17.v")
    for place, words in enumerate(ASKED):
        work = os.path.join(tested.folder, f"asked-{place}")
        os.mkdir(work)
        ended = run([SUBMIT, netlist, "4", *words.split()], work, env=environment)
        whole = tested.run("worst", netlist, *words.split())
        time = reports.values_of(whole.out).get("exact")
        log = read(work, "join.log")
        ends = ended.status, f"accepted {time}" in log.splitlines()
        tested.expect(f"submit.sh with {words}: {ended.err}{log}", (0, True), ends, "asked")
    work = os.path.join(tested.folder, "cut-short")
    os.mkdir(work)
    words = [*SHORT, "--cert-between", "--required", "2"]
    run([SUBMIT, places.example("adder_8.v"), "4", *words], work, env=environment)
    log = read(work, "join.log")
    figures = re.search(r"^unchecked (between \d+ \d+)$", log, re.M)
    ends = figures and f"accepted {figures[1]}" in log, "required 2 violated\n" in log
    tested.expect(f"submit.sh with {words}: {log}", (True, True), ends, "cut short")


def stopped(tested):
    """Cases: a part that gets the signal which Slurm sends before its time limit."""
    work = os.path.join(tested.folder, "stopped")
    os.mkdir(work)
    with open(os.path.join(work, "parts.txt"), "w", encoding="ascii") as file:
        file.write(tested.run("parts", NETLIST, "--parts", "1").out)
    how = "--strategy least --budget 10000000 --cert-between"
    task = {"OFFSET": "0", "SLURM_ARRAY_TASK_ID": "1", "HOW": how, "BUDGET": ""}
    environment = {**os.environ, **task, "NETLIST": NETLIST, "TDELAY": tested.program}
    part = os.path.join(os.path.dirname(SUBMIT), "part.sbatch")
    with subprocess.Popen(["bash", part], cwd=work, env=environment, start_new_session=True) as job:
        try:
            end = time.monotonic() + 60
            while not os.path.exists(os.path.join(work, "part-1.out")) and time.monotonic() < end:
                time.sleep(0.01)
            time.sleep(tested.random.random())
            job.send_signal(signal.SIGUSR1)
            status = job.wait(timeout=60)
        finally:
            end_all(job)
    report = read(work, "part-1.out")
    claim = re.search(r"(?m)^(between \d+ \d+)\ncause stop$", report)
    ends = status, bool(claim)
    tested.expect(f"a part at its time limit: {report}", (3, True), ends, "stopped")
    said = tested.run("check", NETLIST, os.path.join(work, "part-1.cert")).out.splitlines()[:1]
    tested.expect("its certificate", [f"accepted {claim[1]}"] if claim else None, said, "stopped")
    names = ["part-1.cert", "part-1.out", "parts.txt"]
    tested.expect("its files", names, sorted(os.listdir(work)), "stopped")


def yaml_reader():
    """A Python that has PyYAML, or None where there is none."""
    for python in (sys.executable, "/usr/bin/python3"):
        if os.path.exists(python) and not run([python, "-c", "import yaml"]).status:
            return python
    return None


def manifest(python):
    """The YAML of the page, as PyYAML reads it."""
    with open(PAGE, encoding="utf-8") as file:
        text = re.search(r"```yaml\n(.*?)```", file.read(), re.S)[1]
    reader = "import sys, json, yaml; print(json.dumps(yaml.safe_load(sys.argv[1])))"
    ended = run([python, "-c", reader, text])
    if ended.status:
        raise RuntimeError(f"the YAML doesn't parse: {ended.err}")
    return json.loads(ended.out)


def kubernetes(tested):
    """The command of the recipe, for each index, in a folder in place of /work."""
    python = yaml_reader()
    if python is None:
        print("skipped: the YAML of docs/MANY-MACHINES.md, for want of PyYAML (python3-yaml)")
        return
    job = manifest(python)
    container = job["spec"]["template"]["spec"]["containers"][0]
    if (
        job["kind"] != "Job"
        or job["spec"]["completionMode"] != "Indexed"
        or container["command"] != ["sh", "-c"]
    ):
        tested.fault(f"the YAML isn't an indexed job of a shell: {job}")
    work = os.path.join(tested.folder, "pod")
    os.mkdir(work)
    os.symlink(tested.program, os.path.join(work, "tdelay"))
    shutil.copy(NETLIST, os.path.join(work, "big.v"))
    with open(os.path.join(work, "parts.txt"), "w", encoding="ascii") as file:
        file.write(tested.run("parts", NETLIST, "--parts", "3", "--strategy", "lead").out)
    command = container["args"][0].replace("/work/", f"{work}/")
    for index in range(4):
        environment = {
            **os.environ,
            "PATH": f"{work}:{os.environ['PATH']}",
            "JOB_COMPLETION_INDEX": str(index),
        }
        ended = run([*container["command"], command], work, env=environment)
        made = os.path.exists(os.path.join(work, f"part-{index}.cert"))
        if ended.status or made != (index < 3):
            tested.fault(f"index {index}: status {ended.status}, certificate {made}, {ended.err}")
        tested.case("pod")
    joined = tested.run(
        "join",
        NETLIST,
        *(os.path.join(work, f"part-{index}.cert") for index in range(3)),
        "--cert",
        "pod.cert",
    )
    if joined.status:
        tested.fault(f"the parts of the pods don't join: {joined.err}")
    tested.case("pod")


def work(tested):
    """Both recipes, as far as they can be run here. A program that can't be right fails at once."""
    if exact(tested, places.example("c17.v")) != 3:
        tested.fault("the worst delay of examples/c17.v isn't 3")
        return
    asked(tested)
    stopped(tested)
    kubernetes(tested)
    lacking = [name for name in NEEDS if not shutil.which(name)]
    if lacking:
        print(f"skipped: the job arrays, for want of {' and '.join(lacking)} (slurm-wlm, munge)")
        return
    short, budget = budget_for_all_but_one(tested)
    for largest in (1001, 7):
        arrays(tested, largest, short, budget)


def shares(tested, cut):
    """What can be run was run."""
    if not cut and all(map(shutil.which, NEEDS)):
        tested.require("job array", 0.4)


if __name__ == "__main__":
    sys.exit(check.main(work, __doc__, shares=shares))
