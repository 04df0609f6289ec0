"""A fresh clone of the repository, as a newcomer has one: at a path with a blank, with a HOME and TMPDIR of its own. What is
proved and built is handed over to it, so that no command proves a library again."""

import os
import shlex
import shutil
import signal
import subprocess
import time

from shared.gate import (
    ARCHIVE,
    PROVED,
    REPOSITORY,
    SHARED_FOLDER,
    STARTERS,
    crates,
    has_proved,
    is_beside,
    program,
    wait_for,
    write_text,
)
from shared.version import version

# Variables of whoever runs this step that a newcomer has not.
NOT_OURS = (
    "GATE_FOLDER",
    "CARGO_TARGET_DIR",
    "VIRTUAL_ENV",
    "PYTHONPATH",
    "PYTHONHOME",
    "CC",
    "CFLAGS",
    "GIT_DIR",
    "GIT_WORK_TREE",
)

# The programs and the archive, by their crates, as each lies in `out` of its crate.
BUILT = {"times_bench": "times_bench", "stamps": "stamps", "muxandu_c": ARCHIVE}

# The most seconds that a block of commands has, which ends one that hangs. A machine with much to do needs most of them.
LONGEST = 3_000

IDENTITY = "[user]\n\tname = A Newcomer\n\temail = newcomer@example.org\n[init]\n\tdefaultBranch = main\n"


def git(*words, root=REPOSITORY, given=None):
    """What git prints in a repository, as bytes."""
    return subprocess.run(["git", "-C", root, *words], input=given, stdout=subprocess.PIPE, check=True).stdout


def link(source, target):
    """A hard link, as `rt` makes them of what checks kept; a copy where files cannot be linked."""
    try:
        os.link(source, target)
    except OSError:
        shutil.copy2(source, target)


def source_of_builds(folder):
    """Where crates are proved, and where each program and the archive lies that is built: in the gate in its folder, else in a
    checkout."""
    shared = os.environ.get(SHARED_FOLDER)
    if folder is None and shared:
        wait_for(shared, PROVED)
        # the programs come from `rt ci`, which builds each as soon as it is proved
        while is_beside() and not all(has_proved(shared, crate) for crate in STARTERS):
            time.sleep(1)
        built = {crate: path_of_program(shared, crate) for crate in STARTERS}
        return os.path.join(shared, "copy"), {**built, "muxandu_c": os.path.join(shared, ARCHIVE)}
    folder = os.path.abspath(folder or REPOSITORY)
    return folder, {crate: place_of(folder, crate) for crate in BUILT}


def place_of(root, crate):
    """Where a crate of a repository has its program, or the archive."""
    return os.path.join(root, "crates", crate, "out", BUILT[crate])


def path_of_program(shared, crate):
    """The program of a crate that `rt ci` has built: in the folder of the gate once `rt ci` has ended, and until then where it is."""
    kept = program(shared, "llvm", crate)
    return place_of(REPOSITORY, crate) if is_beside() and not os.path.exists(kept) else kept


class Ended:
    """How a command of a block ended: its status, and what it printed, None where it was not reached."""

    def __init__(self, status=None, printed=None, told=""):
        self.status, self.printed, self.told = status, printed, told


class FreshClone:
    """The clone in a folder, and its surroundings."""

    def __init__(self, folder, builds):
        self.place = os.path.join(folder, "a new place")
        self.root = os.path.join(self.place, "muxandu")
        self.crates, self.built = source_of_builds(builds)
        self.blocks = 0
        self.make()

    def make(self):
        for name in ("home", "temporary files"):
            os.makedirs(os.path.join(self.place, name))
        write_text(os.path.join(self.place, "home", ".gitconfig"), IDENTITY)
        if os.path.exists(os.path.join(REPOSITORY, ".git")):
            self.clone()
        else:
            ignored = shutil.ignore_patterns("out", "dist", "target", "__pycache__")
            shutil.copytree(REPOSITORY, self.root, symlinks=True, ignore=ignored)
            git("init", "--quiet", "--initial-branch=main", root=self.root)
        git("add", "--all", root=self.root)
        author = ("-c", "user.name=A Newcomer", "-c", "user.email=newcomer@example.org")
        git(*author, "commit", "--quiet", "--allow-empty", "--message=What is not committed", root=self.root)
        # what is here is the version that a page fetches by its tag
        git("tag", "--force", version(), root=self.root)
        self.hand_over(self.root, crates(self.root))
        for crate, path in self.built.items():
            if os.path.exists(path):
                self.hand_over_built(crate, path)

    def clone(self):
        """Clones what is committed, and carries over what is not."""
        subprocess.run(["git", "clone", "--quiet", REPOSITORY, self.root], check=True)
        git("checkout", "--quiet", "-B", "main", root=self.root)
        changes = git("diff", "--binary", "HEAD")
        if changes:
            git("apply", "--index", "--whitespace=nowarn", root=self.root, given=changes)
        for name in git("ls-files", "--others", "--exclude-standard", "-z").split(b"\0"):
            if name:
                target = os.path.join(self.root, os.fsdecode(name))
                os.makedirs(os.path.dirname(target), exist_ok=True)
                shutil.copy2(os.path.join(REPOSITORY, os.fsdecode(name)), target, follow_symlinks=False)

    def hand_over(self, root, names):
        """Gives crates of a repository what checks of them kept."""
        for crate in names:
            source, target = (os.path.join(place, "crates", crate, "out") for place in (self.crates, root))
            if os.path.isdir(source) and not os.path.exists(target):
                shutil.copytree(source, target, symlinks=True, copy_function=link)

    def hand_over_built(self, crate, path):
        """Gives the clone a program, or the archive, that is newer than all that it is built from."""
        target = os.path.join(self.root, "crates", crate, "out", BUILT[crate])
        os.makedirs(os.path.dirname(target), exist_ok=True)
        if os.path.lexists(target):
            os.remove(target)
        shutil.copy(path, target)

    def reset(self):
        """Takes out of the clone what commands changed and added there, but for what is ignored."""
        git("checkout", "--quiet", "--", ".", root=self.root)
        git("clean", "--quiet", "--force", "-d", root=self.root)
        for crate, name in BUILT.items():
            path = os.path.join(self.root, "crates", crate, "out", name)
            if os.path.exists(path):
                os.utime(path)

    def has(self, crate):
        """Whether a crate was handed over proved, and built where it is a program or the archive."""
        if crate in BUILT:
            return os.path.exists(os.path.join(self.root, "crates", crate, "out", BUILT[crate]))
        return os.path.isdir(os.path.join(self.root, "crates", crate, "out"))

    def folder(self, name):
        """A folder next to the clone, which is made if there is none."""
        path = os.path.join(self.place, name)
        os.makedirs(path, exist_ok=True)
        return path

    def variables(self):
        """The variables of a newcomer, whose tools ask no network."""
        kept = {name: value for name, value in os.environ.items() if name not in NOT_OURS and not name.startswith("MUXANDU")}
        kept.setdefault("RUSTUP_HOME", os.path.expanduser("~/.rustup"))
        return {
            **kept,
            "HOME": os.path.join(self.place, "home"),
            "TMPDIR": os.path.join(self.place, "temporary files"),
            "CARGO_HOME": os.path.join(self.place, "home", ".cargo"),
            "CARGO_NET_OFFLINE": "true",
            # each build is for one run, in which information for debuggers takes as long as the rest
            "CARGO_INCREMENTAL": "0",
            "CARGO_PROFILE_DEV_DEBUG": "0",
            "npm_config_offline": "true",
            "npm_config_update_notifier": "false",
            "PIP_NO_INDEX": "1",
            "PIP_DISABLE_PIP_VERSION_CHECK": "1",
            "MUXANDU": self.root,
            "PATH": f"{os.path.join(self.place, 'home', 'python', 'bin')}:{os.environ['PATH']}",
            "LC_ALL": "C.UTF-8",
        }

    def run_block(self, commands, folder=None):
        """Runs commands in one shell, in a folder, the top of the clone where none is named. How each ended."""
        self.blocks += 1
        said = self.folder(os.path.join("said", str(self.blocks)))
        lines = ["set -eu -o pipefail"]
        for number, command in enumerate(commands):
            lines += [f"exec > {shlex.quote(f'{said}/{number}.out')} 2> {shlex.quote(f'{said}/{number}.err')}", command]
        status, found = self.run_script("\n".join(lines), folder or self.root), []
        for number in range(len(commands)):
            paths = [os.path.join(said, f"{number}.{ending}") for ending in ("out", "err")]
            if not all(map(os.path.exists, paths)):
                found.append(Ended())
                continue
            texts = []
            for path in paths:
                with open(path, encoding="utf-8", errors="replace") as file:
                    texts.append(file.read())
            is_last = not os.path.exists(os.path.join(said, f"{number + 1}.out"))
            found.append(Ended(status if is_last else 0, *texts))
        return found

    def run_script(self, script, folder):
        """Runs commands of bash, and gives the status. Where the step is asked to end, so are they."""
        words = ["timeout", "--kill-after=10", str(LONGEST), "bash", "-c", script]
        silent = dict.fromkeys(("stdin", "stdout", "stderr"), subprocess.DEVNULL)
        with subprocess.Popen(words, cwd=folder, env=self.variables(), process_group=0, **silent) as process:
            try:
                return process.wait()
            except BaseException:
                os.killpg(process.pid, signal.SIGKILL)
                raise

    def run_command(self, command, folder=None):
        """Runs one command, and says how it ended."""
        return self.run_block([command], folder)[0]
