"""Slurm, whose array jobs fly the batches of a campaign. The campaign's folder has to be one that all nodes see."""
import os
import shutil
import subprocess
import sys
import time

MINUTE = 15  # batches of a task, which take a minute or so
MOST_TASKS = 1000  # of an array: Slurm takes 1,001 where nobody has told it otherwise
ROUNDS = 4  # how often what is missing is given out anew, as where a node was lost
PATIENCE = (0.5, 10.0)  # seconds from look to look, at first and at last
INSTALL = "--slurm wants Slurm's sbatch and squeue, which aren't here: on Debian, apt-get install slurm-client"


class NoSlurm(Exception):
    """Why Slurm takes no job."""


def is_here():
    return bool(shutil.which("sbatch") and shutil.which("squeue"))


def asked(words, folder):
    """What a command of Slurm answers, or NoSlurm."""
    done = subprocess.run(words, cwd=folder, capture_output=True, text=True, stdin=subprocess.DEVNULL, check=False)
    if done.returncode:
        said = done.stderr.strip().splitlines() or [f"{words[0]} ends with status {done.returncode}"]
        raise NoSlurm(said[-1].removeprefix(f"{words[0]}: error: "))
    return done.stdout.strip()


def script(kit, name, tasks):
    """The script of a job: each task of its array flies its share of the batches."""
    return f"""#!/bin/sh
#SBATCH --job-name=sift
#SBATCH --array=0-{tasks - 1}
#SBATCH --ntasks=1
#SBATCH --no-requeue
#SBATCH --output=slurm/{name}_%a.log
exec python3 -S -B {kit}/flights.py --share slurm/{name}.batches slurm/{name}_"$SLURM_ARRAY_TASK_ID".txt "$SLURM_ARRAY_TASK_ID" {tasks}
"""


class Slurm:
    """Jobs of Slurm for a campaign, each an array. What is missing when one has ended is given to another one."""

    def __init__(self, records, tasks=None):
        self.records = records
        self.tasks = tasks
        self.folder = records.path("slurm")

    def path(self, name):
        return os.path.join(self.folder, name)

    def fly(self, progress=lambda done, of: None):
        """Flies what is missing, and tells the number of the last job, or None where nothing was."""
        os.makedirs(self.folder, exist_ok=True)
        job = self.earlier()
        if job:
            self.wait(job, progress)
        for _ in range(ROUNDS):
            left = self.records.left()
            if not left:
                break
            job = self.submit(left)
            self.wait(job, progress)
        return job

    def earlier(self):
        """The job of a call before this one, which may still be at work, or None."""
        names = [name for name in os.listdir(self.folder) if name.endswith(".job")]
        if not names:
            return None
        with open(self.path(max(names, key=lambda name: int(name[:-4]))), encoding="utf-8") as file:
            return file.read().strip()

    def submit(self, left):
        """Gives batches to a new job, and tells its number."""
        name = str(sum(each.endswith(".sh") for each in os.listdir(self.folder)) + 1)
        tasks = min(len(left), MOST_TASKS, self.tasks or -(-len(left) // MINUTE))
        with open(self.path(f"{name}.batches"), "w", encoding="utf-8") as file:
            file.writelines(f"{number}\n" for number in left)
        with open(self.path(f"{name}.sh"), "w", encoding="utf-8") as file:
            file.write(script(os.path.basename(self.records.campaign.kit), name, tasks))
        job = asked(["sbatch", "--parsable", f"--chdir={self.records.folder}", f"slurm/{name}.sh"], self.records.folder).split(";")[0]
        with open(self.path(f"{name}.job"), "w", encoding="utf-8") as file:
            file.write(f"{job}\n")
        print(f"sweep: Slurm has {len(left):,} {'batch' if len(left) == 1 else 'batches'} in {tasks:,} {'task' if tasks == 1 else 'tasks'} of job {job}", file=sys.stderr, flush=True)
        return job

    def wait(self, job, progress):
        """Waits until a job has ended. One that the tool leaves is taken away."""
        pause, last = PATIENCE
        try:
            while is_queued(job):
                progress(len(self.records.flown()), len(self.records.campaign.batches()))
                time.sleep(pause)
                pause = min(last, 1.5 * pause)
        except KeyboardInterrupt:
            subprocess.run(["scancel", job], check=False)
            raise


def is_queued(job):
    """Whether a job waits or is at work. While Slurm doesn't answer, it may be."""
    done = subprocess.run(["squeue", "--noheader", "--jobs", job], capture_output=True, text=True, check=False)
    if done.returncode:
        return "Invalid job id" not in done.stderr
    return bool(done.stdout.strip())
