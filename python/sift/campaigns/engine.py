"""GNU parallel, whose jobs are the batches of a campaign."""
import os
import shlex
import subprocess
import sys

# How many more runs of a job fly while one is waited for, where it isn't told how many jobs there are to be at once: so no
# processor waits, and at the end those of the jobs that have ended fly the last runs of the others.
MORE = "1"
REMOTE_SHELL = "ssh -o BatchMode=yes -o ConnectTimeout=10 -o ServerAliveInterval=5 -o ServerAliveCountMax=3"


def start(words, folder, output):
    """Starts it in a folder, where it waits for what is written to it."""
    shell = {"PARALLEL_SSH": REMOTE_SHELL, **os.environ}
    return subprocess.Popen(["parallel", *words], cwd=folder, stdin=subprocess.PIPE, stdout=output, env=shell)


def machines(logins):
    """The words that name other machines, if any."""
    return [word for login in logins for word in ("--sshlogin", login)]


class Engine:
    """GNU parallel at work in a campaign's folder. It starts without its jobs, and so it can start before they are known."""

    def __init__(self, kit, jobs, logins):
        self.logins = logins
        folder, self.kit = os.path.split(os.path.abspath(kit))
        words = ["--joblog", "jobs.log", "--resume"]
        words += ["--jobs", jobs] if jobs else []
        words += ["--bar"] if sys.stderr.isatty() else []
        python = [shlex.quote(sys.executable), "-S"]
        if logins:
            # The kit is copied along, and the jobs of a machine that is lost go to others.
            words += [*machines(logins), "--basefile", self.kit, "--retries", "4"]
            python = ["python3", "-S", "-B"]
        with open(os.path.join(folder, "jobs.txt"), "ab") as output:
            output.write(b"\n")  # behind what may be cut off
            output.flush()
            self.process = start([*words, *python, f"{self.kit}/flights.py", "{}", "0" if jobs else MORE], folder, output)

    def fly(self, numbers):
        """Lets it fly those of the batches that its log doesn't have, and tells its status."""
        try:
            self.process.communicate("".join(f"{number}\n" for number in numbers).encode())
        except BaseException:
            self.process.kill()
            raise
        if self.logins:
            # From another folder than the campaign's, whose own kit stays.
            start(["--nonall", *machines(self.logins), "rm", "-rf", self.kit], "/", subprocess.DEVNULL).communicate()
        return self.process.returncode

    def end(self):
        """Lets it end with no jobs."""
        self.process.communicate()
