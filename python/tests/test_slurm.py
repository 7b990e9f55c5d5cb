"""A campaign as array jobs of a real Slurm: slurmctld and two nodes on this machine, in a folder of the test's own, as root.

A script stands in for the program, and answers each run with the report of first_5_liar, after a while. What this machine lacks is
skipped, and said.
"""
import os
import shutil
import signal
import socket
import subprocess
import sys
import time
from pathlib import Path

import pytest

TOP = Path(__file__).resolve().parents[2]
MISSION = TOP / "missions" / "first_5_liar.toml"
COMMANDS = ("slurmctld", "slurmd", "sbatch", "squeue", "sinfo")
PATIENCE = 60  # seconds
RUNS = 34
MARK = "SIFT_TEST_NODE"

CONF = """ClusterName=sift
SlurmctldHost={host}(127.0.0.1)
SlurmUser=root
SlurmdUser=root
AuthType=auth/none
CredType=cred/none
SlurmctldPort={ports[0]}
StateSaveLocation={folder}/state
SlurmdSpoolDir={folder}/spool_%n
SlurmctldPidFile={folder}/slurmctld.pid
SlurmdPidFile={folder}/slurmd_%n.pid
SlurmctldLogFile={folder}/slurmctld.log
SlurmdLogFile={folder}/slurmd_%n.log
ProctrackType=proctrack/linuxproc
TaskPlugin=task/none
SelectType=select/cons_tres
SelectTypeParameters=CR_CPU
SchedulerType=sched/builtin
SlurmdTimeout=6
ReturnToService=2
MpiDefault=none
NodeName=one NodeHostname={host} NodeAddr=127.0.0.1 Port={ports[1]} CPUs=1
NodeName=two NodeHostname={host} NodeAddr=127.0.0.1 Port={ports[2]} CPUs=1
PartitionName=all Nodes=one,two Default=YES MaxTime=INFINITE State=UP
"""


def free_ports(count):
    """Ports that nobody has."""
    sockets = [socket.socket() for _ in range(count)]
    for each in sockets:
        each.bind(("127.0.0.1", 0))
    ports = [each.getsockname()[1] for each in sockets]
    for each in sockets:
        each.close()
    return ports


def until(holds, what):
    """Waits until something holds."""
    end = time.monotonic() + PATIENCE
    while not holds():
        assert time.monotonic() < end, f"{what} doesn't come in {PATIENCE} s"
        time.sleep(0.1)


class Cluster:
    """slurmctld and two nodes."""

    def __init__(self, folder):
        self.folder = folder
        (folder / "state").mkdir()
        conf = folder / "slurm.conf"
        conf.write_text(CONF.format(host=socket.gethostname().split(".")[0], folder=folder, ports=free_ports(3)))
        self.environment = {**os.environ, "SLURM_CONF": str(conf)}
        self.nodes = {}
        with (folder / "said").open("w") as said:
            self.control = subprocess.Popen(["slurmctld", "-D"], env=self.environment, stdout=said, stderr=said)
            for name in ("one", "two"):
                marked = {**self.environment, MARK: f"{folder}/{name}"}
                self.nodes[name] = subprocess.Popen(["slurmd", "-D", "-N", name], env=marked, stdout=said, stderr=said)

    def states(self):
        """The states of the nodes by their names."""
        asked = subprocess.run(["sinfo", "-h", "-N", "-o", "%N %t"], env=self.environment, capture_output=True, text=True, check=False)
        return dict(line.split() for line in asked.stdout.splitlines())

    def processes_of(self, name):
        """The processes that a node started: each has the node's mark, or as a job its name, in its environment."""
        marks = (f"{MARK}={self.folder}/{name}".encode(), f"SLURMD_NODENAME={name}".encode())
        ours = f"SLURM_CONF={self.folder}/slurm.conf".encode()
        for entry in Path("/proc").iterdir():
            if entry.name.isdigit() and int(entry.name) != os.getpid():
                try:
                    environment = (entry / "environ").read_bytes().split(b"\0")
                except OSError:
                    continue
                if ours in environment and any(mark in environment for mark in marks):
                    yield int(entry.name)

    def kill(self, name):
        """What a node is when its power goes: all of its processes are gone at once."""
        for process in [self.nodes[name].pid, *self.processes_of(name)]:
            try:
                os.kill(process, signal.SIGKILL)
            except ProcessLookupError:
                pass
        self.nodes.pop(name).wait()

    def end(self):
        for name in list(self.nodes):
            self.kill(name)
        self.control.kill()
        self.control.wait()


@pytest.fixture
def cluster(tmp_path):
    lacking = [command for command in COMMANDS if not shutil.which(command)]
    if lacking or os.geteuid() != 0:
        pytest.skip(f"Slurm isn't tried: {', '.join(lacking)} isn't here" if lacking else "Slurm isn't tried: it wants root")
    made = Cluster(tmp_path)
    try:
        until(lambda: set(made.states().values()) == {"idle"} and len(made.states()) == 2, "a cluster of two nodes")
        yield made
    finally:
        made.end()


@pytest.fixture
def program(tmp_path):
    """A program that answers each run after a tenth of a second."""
    ideal = (TOP / "cases" / "sweeps" / "first_5_liar.ideal").read_text()
    report = MISSION.with_suffix(".report").read_text()
    path = tmp_path / "program"
    path.write_text(f"""#!/bin/sh
cat >/dev/null
case $1 in
  run) sleep 0.1; cat <<'END'
{report}END
  ;;
  ideal) cat <<'END'
{ideal}END
  ;;
  *) exit 2 ;;
esac
""")
    path.chmod(0o755)
    return path


def sweep(folder, program, *words, environment=None, **more):
    """A campaign of RUNS runs, with words more. Beside the mission's own fault nothing is promised of another one, which the one
    report that the program has wouldn't keep."""
    called = [sys.executable, str(TOP / "tools" / "sweep"), str(MISSION), "--kinds", "wrong", "--keep", "--program", str(program), "--out", str(folder), *words]
    return subprocess.Popen(called, env=environment, stdout=subprocess.PIPE, stderr=subprocess.PIPE, text=True, **more)


def resume(folder, environment):
    called = [sys.executable, str(TOP / "tools" / "sweep"), "--resume", "--slurm", "--out", str(folder)]
    return subprocess.run(called, env=environment, capture_output=True, text=True, check=False)


def flown_by(folder):
    """How many batches the tasks of Slurm have written."""
    return sum(path.read_text().count("\ndone ") for path in (folder / "slurm").glob("*.txt")) if (folder / "slurm").is_dir() else 0


def test_a_node_is_killed(cluster, program, tmp_path):
    folder = tmp_path / "campaign"
    flight = sweep(folder, program, "--slurm", "--batch", "2", "--jobs", "4", environment=cluster.environment)
    until(lambda: flown_by(folder) >= 4 and cluster.states()["two"].startswith("alloc"), "some batches on both nodes")
    assert flown_by(folder) < RUNS // 2, "all was flown before the node was killed"
    cluster.kill("two")
    output, said = flight.communicate(timeout=4 * PATIENCE)
    assert flight.returncode == 0, said
    assert output.startswith(f"{RUNS} runs with a single fault: an output was lost in 0, the margin in 0\n")
    assert said.count("sweep: Slurm has ") >= 2, "what the node had wasn't given out anew: " + said
    table = (folder / "runs.tsv").read_text()
    assert [line.split("\t")[0] for line in table.splitlines()[1:]] == [str(number) for number in range(1, RUNS + 1)]
    assert cluster.states()["two"].startswith("down")

    # The same table as GNU parallel's, where that is here; and after rows were lost that of before.
    if shutil.which("parallel"):
        other = sweep(tmp_path / "parallel", program, "--batch", "2")
        assert other.wait() == 0
        assert (tmp_path / "parallel" / "runs.tsv").read_text() == table
    (folder / "runs.tsv").unlink()
    for path in (folder / "slurm").glob("*.txt"):
        path.write_bytes(path.read_bytes()[:-30])
    ended = resume(folder, cluster.environment)
    assert ended.returncode == 0, ended.stderr
    assert (folder / "runs.tsv").read_text() == table


def test_it_is_resumed_while_its_job_is_at_work(cluster, program, tmp_path):
    folder = tmp_path / "campaign"
    flight = sweep(folder, program, "--slurm", "--batch", "2", "--jobs", "2", environment=cluster.environment)
    until(lambda: flown_by(folder) >= 2, "some batches")
    flight.kill()
    flight.wait()
    ended = resume(folder, cluster.environment)
    assert ended.returncode == 0, ended.stderr
    assert len(list((folder / "slurm").glob("*.job"))) == 1, "a second job, while the first was at work"
    assert len((folder / "runs.tsv").read_text().splitlines()) == RUNS + 1


def test_what_slurm_refuses_is_told(cluster, program, tmp_path):
    folder = tmp_path / "campaign"
    flight = sweep(folder, program, "--slurm", environment={**cluster.environment, "SBATCH_PARTITION": "none"})
    _, said = flight.communicate(timeout=PATIENCE)
    assert flight.returncode == 125
    why = "Batch job submission failed: Invalid partition name specified"
    assert said.splitlines()[-1] == f"sweep: Slurm takes no job: {why}; --resume --slurm goes on"


def test_without_slurm_it_says_what_to_install(program, tmp_path):
    bare = tmp_path / "bare"
    bare.mkdir()
    for command in ("cat", "sleep"):
        (bare / command).symlink_to(shutil.which(command))
    flight = sweep(tmp_path / "campaign", program, "--slurm", environment={"PATH": str(bare)})
    _, said = flight.communicate(timeout=PATIENCE)
    assert flight.returncode == 125
    assert said.splitlines()[-1] == "sweep: --slurm wants Slurm's sbatch and squeue, which aren't here: on Debian, apt-get install slurm-client"
