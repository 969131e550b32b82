#!/usr/bin/env python3
"""Tests the Slurm array of docs/BUILDS.md: on a cluster of this machine alone, and by itself with the variables that Slurm sets.

    tests/slurm_tests.py [PROGRAM] [-k NAME]

The cluster has its keys, sockets, ports and state in a temporary directory, and ends with the tests.  It touches no other cluster.
Only root can start it, and it needs Debian's slurmctld, slurmd, slurm-client and munge.
"""
import contextlib
import json
import os
import re
import shutil
import signal
import socket
import subprocess
import tempfile
import time
import unittest

from counted import TOP, Folder, main, missed, program, run, script, well, write

PARTS, PATIENCE = 16, 300
# the daemons are where the path of a user may not lead
os.environ["PATH"] += os.pathsep + "/usr/sbin" + os.pathsep + "/sbin"
CONFIGURATION = """\
ClusterName=alone
SlurmctldHost={host}(127.0.0.1)
SlurmUser=root
SlurmdUser=root
AuthType=auth/munge
AuthInfo=socket={top}/munge/socket,cred_expire=5
CredType=cred/munge
SlurmctldPort={ports[0]}
SlurmdPort={ports[1]}
StateSaveLocation={top}/state
SlurmdSpoolDir={top}/spool
SlurmctldPidFile={top}/slurmctld.pid
SlurmdPidFile={top}/slurmd.pid
SlurmctldLogFile={top}/slurmctld.log
SlurmdLogFile={top}/slurmd.log
ProctrackType=proctrack/linuxproc
TaskPlugin=task/none
JobAcctGatherType=jobacct_gather/none
AccountingStorageType=accounting_storage/none
MpiDefault=none
SwitchType=switch/none
SelectType=select/cons_tres
SelectTypeParameters=CR_CPU
SchedulerParameters=sched_min_interval=10000,batch_sched_delay=0
ReturnToService=2
SlurmdTimeout=300
SlurmdParameters=config_overrides
KillWait=5
JobRequeue=1
NodeName={host} NodeAddr=127.0.0.1 CPUs=2 State=UNKNOWN
PartitionName=all Nodes=ALL Default=YES MaxTime=INFINITE State=UP
"""
# stands for the program: if there is a file `hold-N`, task N prints half of its output and waits
SLOW = """\
#!/bin/sh
[ -e "hold-$SLURM_ARRAY_TASK_ID" ] || exec {program} "$@"
{program} "$@" | head -c 2000
: > "held-$SLURM_ARRAY_TASK_ID"
exec sleep 1000
"""
SOURCE = "#include <stdio.h>\n#include <stdlib.h>\n#include \"own.h\"\nint f%d(void) { return OWN(%d) + EOF; }\n%s"


def until(condition):
    """Waits until a condition holds."""
    end = time.monotonic() + PATIENCE
    while not condition():
        if time.monotonic() > end:
            raise AssertionError("nothing happened in %d seconds" % PATIENCE)
        time.sleep(0.1)


class Cluster:
    """Is a cluster of one machine, in a directory of its own."""

    def __init__(self, top):
        self.top, self.daemons = top, []
        self.host = socket.gethostname().split(".")[0]
        self.environment = dict(os.environ, SLURM_CONF=os.path.join(top, "slurm.conf"))

    def start(self):
        for name, mode in ("munge", 0o755), ("state", 0o700), ("spool", 0o700):
            os.mkdir(os.path.join(self.top, name), mode)
        os.chmod(self.top, 0o755)
        with open(os.open(os.path.join(self.top, "key"), os.O_WRONLY | os.O_CREAT, 0o400), "wb") as key:
            key.write(os.urandom(1024))
        write(self.top, {"slurm.conf": CONFIGURATION.format(host=self.host, top=self.top, ports=free_ports(2))})
        files = {"key-file": "key", "socket": "munge/socket", "pid-file": "munge/pid", "log-file": "munge.log", "seed-file": "munge.seed"}
        words = ["--%s=%s" % (option, os.path.join(self.top, name)) for option, name in files.items()]
        self.daemon("munged", "--foreground", "--force", *words)
        until(lambda: self.alive() and os.path.exists(os.path.join(self.top, "munge/socket")))
        self.daemon("slurmctld", "-D", "-c")
        self.daemon("slurmd", "-D", "-N", self.host)
        until(lambda: self.alive() and self.run("sinfo", "-h", "-t", "idle", "-o", "%n").stdout.strip())

    def daemon(self, *command):
        """Starts a daemon in the foreground, so that it is known which process to end."""
        with open(os.path.join(self.top, command[0] + ".said"), "wb") as said:
            self.daemons.append(subprocess.Popen(command, env=self.environment, stdin=subprocess.DEVNULL, stdout=said, stderr=said))

    def alive(self):
        for daemon in self.daemons:
            if daemon.poll() is not None:
                with open(os.path.join(self.top, daemon.args[0] + ".said")) as said:
                    raise AssertionError("%s ended with status %d: %s" % (daemon.args[0], daemon.returncode, said.read()))
        return True

    def run(self, *command):
        return run(command, env=self.environment)

    def stop(self):
        if len(self.daemons) == 3:
            self.run("scancel", "--full", "--user=root")
        for daemon in reversed(self.daemons):
            daemon.terminate()
            with contextlib.suppress(subprocess.TimeoutExpired):
                daemon.wait(20)
            daemon.kill()
            daemon.wait()
        # what starts a task outlives the daemon; its directory is that of the cluster
        for name in filter(str.isdigit, os.listdir("/proc")):
            with contextlib.suppress(OSError):
                if os.readlink("/proc/%s/cwd" % name).startswith(os.path.join(self.top, "spool")):
                    os.kill(int(name), signal.SIGKILL)


def free_ports(count):
    with contextlib.ExitStack() as stack:
        found = [stack.enter_context(socket.socket()) for _ in range(count)]
        for one in found:
            one.bind(("127.0.0.1", 0))
        return [one.getsockname()[1] for one in found]


def array():
    """Returns the script of docs/BUILDS.md."""
    with open(os.path.join(TOP, "docs", "BUILDS.md")) as file:
        return re.search(r"^```sh\n(#!/bin/sh\n#SBATCH .*?)^```$", file.read(), re.M | re.S)[1]


class Array(Folder):
    """Has the list of a small build over headers of the machine, cut into the parts of the array."""

    def setUp(self):
        super().setUp()
        missed("cc")
        units = {"u%d.c" % n: SOURCE % (n, n, "#error stop\n" if n == 7 else "") for n in range(40)}
        build = [{"directory": self.top, "command": "cc -c " + name, "file": name} for name in units]
        write(self.top, {**units, "own.h": "#define OWN(n) (n * 2)\n", "build.json": json.dumps(build), "array.sh": array(),
                         "tools/cppunits": SLOW.format(program=program())})
        os.chmod(self.path("tools/cppunits"), 0o755)
        done = script("build.py", "deps", "--program", program(), "--list", "names.json", "build.json", cwd=self.top)
        self.assertEqual(done.returncode, 1, done.stderr)
        with open(self.path("names.json")) as file:
            listed = json.load(file)
        listed["files"] = [dict(row, hex=contents("/" + row["name"])) for row in listed["files"]]
        write(self.top, {"list.json": json.dumps(listed)})
        self.assertEqual(script("shards.py", "cut", str(PARTS), "list.json", cwd=self.top).returncode, 0)
        self.environment = dict(os.environ, PATH=self.path("tools") + os.pathsep + os.environ["PATH"])

    def outputs(self):
        return ["shards/%03d.out" % number for number in range(PARTS)]

    def join(self, outputs):
        return script("shards.py", "join", "--list", "list.json", *outputs, cwd=self.top)

    def compare(self):
        """Wants that the parts are what one run prints, byte for byte, and that no other file is left."""
        with open(self.path("list.json"), "rb") as listed:
            whole = run([program(), "dump"], stdin=listed)
        done = self.join(self.outputs())
        self.assertEqual((done.stderr, done.returncode, whole.returncode), (b"", 1, 1))
        self.assertTrue(done.stdout == whole.stdout)
        self.assertGreater(len(whole.stdout), 100000)
        lists = [name.replace(".out", ".json") for name in self.outputs()]
        self.assertEqual(sorted("shards/" + name for name in os.listdir(self.path("shards"))), sorted(self.outputs() + lists))

    def hold(self, number):
        """Lets a task wait in the middle of its output."""
        write(self.top, {"hold-%d" % number: ""})

    def is_held(self, number):
        return os.path.exists(self.path("held-%d" % number))


def contents(path):
    with open(path, "rb") as file:
        return file.read().hex()


class Tasks(Array):
    """Runs tasks without Slurm."""

    def begin(self, number, restart=0, job=100):
        variables = {"SLURM_ARRAY_TASK_ID": number, "SLURM_JOB_ID": job + number, "SLURM_CPUS_PER_TASK": 2}
        variables.update({"SLURM_RESTART_COUNT": restart} if restart else {})
        environment = dict(self.environment, **{name: str(value) for name, value in variables.items()})
        return subprocess.Popen(["sh", "array.sh"], cwd=self.top, env=environment, start_new_session=True, stderr=subprocess.PIPE)

    def end(self, task):
        """Returns the status of a task, and what it said."""
        said = task.communicate()[1]
        return task.returncode, said

    def all(self):
        for number in range(PARTS):
            self.assertEqual(self.end(self.begin(number)), (0, b""))

    def test_all_tasks(self):
        self.all()
        self.compare()

    def test_two_attempts_at_once(self):
        """Slurm starts a task again while its first attempt still runs on a node that was lost."""
        self.hold(3)
        first = self.begin(3)
        until(lambda: self.is_held(3))
        os.unlink(self.path("hold-3"))
        self.assertEqual(self.end(self.begin(3, restart=1)), (0, b""))
        os.killpg(first.pid, signal.SIGTERM)
        self.assertEqual(self.end(first)[0], 143)
        self.all()
        self.compare()

    def test_a_task_that_is_ended(self):
        self.hold(5)
        task = self.begin(5)
        until(lambda: self.is_held(5))
        self.assertEqual(len([name for name in os.listdir(self.path("shards")) if name.startswith("005.part")]), 1)
        os.killpg(task.pid, signal.SIGTERM)
        self.assertEqual(self.end(task)[0], 143)
        self.assertEqual([name for name in os.listdir(self.path("shards")) if name.startswith("005")], ["005.json"])

    def test_a_list_that_is_refused(self):
        write(self.top, {"shards/002.json": "{"})
        self.assertEqual(self.end(self.begin(2)), (3, b"cppunits: list refused L1\n"))
        self.assertEqual([name for name in os.listdir(self.path("shards")) if name.startswith("002")], ["002.json"])

    def test_a_part_of_an_earlier_list(self):
        self.all()
        with open(self.path("list.json")) as file:
            listed = json.load(file)
        listed["units"][0]["define"].append("MORE 1")
        write(self.top, {"list.json": json.dumps(listed)})
        self.assertEqual(script("shards.py", "cut", str(PARTS), "list.json", cwd=self.top).returncode, 0)
        self.assertEqual(self.end(self.begin(0)), (0, b""))
        done = script("shards.py", "join", *self.outputs(), cwd=self.top)
        self.assertEqual((done.returncode, done.stdout), (3, b""))
        self.assertEqual(done.stderr, b"shards.py: shards/001.out: it is a part of another list\n")
        self.all()
        self.compare()


class Slurm(Array):
    cluster, refusal = None, None

    def setUp(self):
        missed("munged", "slurmctld", "slurmd", "sbatch")
        if os.getuid():
            raise unittest.SkipTest("only root can start a cluster")
        super().setUp()
        if Slurm.cluster is None:
            self.start()
        if Slurm.refusal:
            raise unittest.SkipTest(Slurm.refusal)
        Slurm.cluster.alive()
        self.environment["SLURM_CONF"] = self.cluster.environment["SLURM_CONF"]

    def start(self):
        """Starts the cluster of all these tests."""
        top = os.path.realpath(tempfile.mkdtemp(prefix="slurm."))
        self.addClassCleanup(shutil.rmtree, top)
        Slurm.cluster = Cluster(top)
        self.addClassCleanup(self.cluster.stop)
        try:
            self.cluster.start()
        except AssertionError as reason:
            Slurm.refusal = "no cluster starts here: %s" % reason

    def slurm(self, *command):
        return well(command, cwd=self.top, env=self.environment, timeout=PATIENCE).decode()

    def submit(self, *words):
        """Submits the script, and returns the job's number."""
        return self.slurm("sbatch", "--parsable", *words, "array.sh").split()[0]

    def is_idle(self):
        """Returns whether no task is running or waiting."""
        return not self.slurm("squeue", "-h", "--user=root", "--states=PENDING,RUNNING,COMPLETING,CONFIGURING").strip()

    def test_a_task_is_canceled_and_run_again(self):
        self.hold(3)
        job = self.submit()
        others = [name for name in self.outputs() if name != "shards/003.out"]
        until(lambda: self.is_held(3) and all(os.path.exists(self.path(name)) for name in others))
        self.slurm("scancel", job + "_3")
        until(self.is_idle)
        self.assertEqual([name for name in os.listdir(self.path("shards")) if name.startswith("003")], ["003.json"])
        done = self.join(others)
        self.assertEqual((done.returncode, done.stdout), (3, b""))
        self.assertEqual(done.stderr, b"shards.py: shards/004.out: it is part 4, and part 3 is wanted here\n")
        os.unlink(self.path("hold-3"))
        self.submit("--wait", "--array=3")
        self.compare()

    def test_a_task_is_requeued_while_it_runs(self):
        self.hold(2)
        job = self.submit()
        until(lambda: self.is_held(2))
        os.unlink(self.path("hold-2"))
        self.slurm("scontrol", "requeue", job + "_2")
        until(lambda: all(os.path.exists(self.path(name)) for name in self.outputs()))
        until(self.is_idle)
        self.compare()

    def test_a_task_whose_list_is_refused(self):
        write(self.top, {"shards/001.json": "{}"})
        done = run(["sbatch", "--wait", "--array=0-1", "array.sh"], cwd=self.top, env=self.environment, timeout=PATIENCE)
        self.assertEqual(done.returncode, 3, done.stderr)
        with open(self.path("slurm-%s_1.out" % done.stdout.split()[-1].decode())) as said:
            self.assertEqual(said.read(), "cppunits: list refused L2\n")
        self.assertEqual(sorted(name for name in os.listdir(self.path("shards")) if not name.endswith(".json")), ["000.out"])


if __name__ == "__main__":
    main()
