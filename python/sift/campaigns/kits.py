"""The kit of a campaign: a folder in its folder, with the mission, the program and the tools as they were when it began."""
import contextlib
import os

LOGS = ("jobs.log", "jobs.txt")  # the engine's log, and what the jobs wrote
KEPT = (*LOGS, "runs.tsv", "slurm", "smallest.toml")  # what a campaign keeps beside its kit
KIT = "sift-campaign-"  # what the name of a kit's folder begins with; it lies under that name on other machines, too


def new_kit(folder, undo):
    """Makes the folder for a kit, under a name that no other has. What takes all of it away again goes to `undo`."""
    kit = os.path.join(folder, KIT + os.urandom(4).hex())
    made = [os.path.abspath(folder)]
    while not os.path.exists(made[-1]):
        made.append(os.path.dirname(made[-1]))
    for path in reversed(made[:-1]):
        undo.callback(taken_away, os.rmdir, path)
    for name in LOGS:
        path = os.path.join(folder, name)
        if not os.path.exists(path):
            undo.callback(taken_away, os.remove, path)
    undo.callback(tree_taken_away, kit)
    os.makedirs(kit)
    return kit


def taken_away(remove, path):
    """Takes away a file or an empty folder, where it is there."""
    with contextlib.suppress(OSError):
        remove(path)


def tree_taken_away(folder):
    """Takes away a folder with all that it has, where it is there."""
    import shutil  # which a campaign does without that begins

    shutil.rmtree(folder, ignore_errors=True)


def kits_of(folder):
    """The kits of a campaign's folder, of which there is one where a campaign has begun in it."""
    names = os.listdir(folder) if os.path.isdir(folder) else []
    kits = [os.path.join(folder, name) for name in names if name.startswith(KIT)]
    return [kit for kit in kits if os.path.exists(os.path.join(kit, "campaign.json"))]


def kit_of(folder):
    """The kit of a campaign's folder, or None."""
    return next(iter(kits_of(folder)), None)


def can_fly(program):
    """Whether there is such a program."""
    return os.access(program, os.X_OK) and os.path.isfile(program)
