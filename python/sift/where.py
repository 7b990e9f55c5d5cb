"""Where the program, its library and its pages are: in a clone, below share/sift where tools/install put them, or in the package
itself where pip did."""
import os

PACKAGE = os.path.dirname(os.path.realpath(__file__))
TOP = os.path.dirname(os.path.dirname(PACKAGE))
# In a clone and in an installation the package lies in the folder python, beside docs and out.
IN_PLACE = os.path.basename(os.path.dirname(PACKAGE)) == "python" and os.path.isdir(os.path.join(TOP, "docs"))
HOME = TOP if IN_PLACE else os.path.join(PACKAGE, "bundled")
IN_CLONE = IN_PLACE and os.path.exists(os.path.join(TOP, "tools", "build"))
BUILT = os.path.join(HOME, "out", "sift")


def program():
    """The built program: the one that SIFT_PROGRAM names, ours, or one that is installed; or where ours would be."""
    named = os.environ.get("SIFT_PROGRAM")
    if named or IN_PLACE or os.access(BUILT, os.X_OK):
        return named or BUILT
    return command("sift") or BUILT


def command(name):
    """The path of a command that is installed, or None. It is what shutil has, which takes as long to load as some flights."""
    folders = os.environ.get("PATH", os.defpath).split(os.pathsep)
    paths = [os.path.join(folder or os.curdir, name) for folder in folders]
    return next((path for path in paths if os.path.isfile(path) and os.access(path, os.X_OK)), None)


def library():
    """The built library: the one that SIFT_LIBRARY names, or ours; or None. A program that is named, or that was built of other
    sources since, counts in place of ours."""
    named = os.environ.get("SIFT_LIBRARY")
    ours = os.path.join(HOME, "out", "libsift.so")
    if named or os.environ.get("SIFT_PROGRAM") or not os.path.exists(ours) or is_older(ours):
        return named
    return ours


def is_older(path):
    """Whether our library was built before the program, and of other sources."""
    made_of = [noted(os.path.join(HOME, "out", name)) for name in ("library.sources", "sift.sources")]
    return os.path.exists(BUILT) and made_of[0] != made_of[1] and os.path.getmtime(path) < os.path.getmtime(BUILT)


def noted(path):
    """What a file has, where it is there."""
    try:
        with open(path, encoding="utf-8") as file:
            return file.read()
    except OSError:
        return None


def launcher():
    """What runs the program, built or not."""
    return os.path.join(TOP, "sift") if IN_PLACE else program()


def page(name):
    """The path of a page."""
    return os.path.join(HOME, "docs", name)
