"""The built program, and how its answer is written down beside the model's."""

import functools
import os
import select
import shutil
import signal
import tempfile
import time
from collections import namedtuple

TOP = os.path.dirname(os.path.dirname(os.path.dirname(os.path.abspath(__file__))))
TDX = os.path.join(TOP, "crates", "tdx", "out", "tdx")
SECONDS = 120
MEMORY, ROOM = "/dev/shm", 1 << 28  # where files are in memory, and how much of that has to be free
FAILS = (signal.SIGPIPE, signal.SIGXFSZ)  # signals that Python ignores, and a program that it starts doesn't

# The text is the output, and behind it each file that was saved, under its name.
Answer = namedtuple("Answer", "status text")


def is_there():
    """Whether the program was built."""
    return os.access(TDX, os.X_OK)


def whole_text(text, saved):
    """An output, and the files that were saved."""
    return text + "".join(f"--- {name}\n{saved[name].decode('latin-1')}" for name in sorted(saved))


def in_memory():
    """Where files are in memory, or None where there isn't room enough."""
    has_room = os.access(MEMORY, os.W_OK) and shutil.disk_usage(MEMORY).free >= ROOM
    return MEMORY if has_room else None


# In it each process that runs the program has a folder. It goes with the process that made it.
FOLDERS = tempfile.TemporaryDirectory(prefix="tdx-runs-", dir=in_memory())
OWNER = os.getpid()


def leave(number, _frame):
    """Ends a process that is told to end, and with it the folders that it has made."""
    if os.getpid() == OWNER:
        shutil.rmtree(FOLDERS.name, ignore_errors=True)
    os._exit(128 + number)


signal.signal(signal.SIGTERM, leave)
# A process that this one forks is ended as the system does it: Python's own way may come too late where it waits for a lock.
os.register_at_fork(after_in_child=lambda: signal.signal(signal.SIGTERM, signal.SIG_DFL))


class Folder:
    """A folder, and what is known to stand there: the bytes of each file, by its name."""

    def __init__(self):
        self.path, self.files = tempfile.mkdtemp(dir=FOLDERS.name), {}

    def path_of(self, name):
        """The path of one of its files."""
        return f"{self.path}/{name}"

    def put(self, files):
        """Lets these files stand there alone."""
        for name in self.files.keys() - files.keys():
            os.remove(self.path_of(name))
        for name, text in files.items():
            if self.files.get(name) != text:
                with open(self.path_of(name), "wb") as file:
                    file.write(text)

    def look(self):
        """Finds out what stands there."""
        self.files = {}
        for name in os.listdir(self.path):
            with open(self.path_of(name), "rb", 0) as file:
                self.files[name] = file.read()

    def begin(self, words, output):
        """Begins a run of the program there, with that output."""
        home = os.getcwd()
        os.chdir(self.path)
        try:
            return os.posix_spawn(TDX, [TDX, *words], os.environ, file_actions=[(os.POSIX_SPAWN_DUP2, output, 1)], setsigdef=FAILS)
        finally:
            os.chdir(home)


@functools.lru_cache
def folder_of(_process):
    """The folder of that process, which it keeps for all its runs."""
    return Folder()


def told(pipe, end):
    """What comes out of a pipe until it is closed, or until that time."""
    parts, waits = [], select.poll()
    waits.register(pipe, select.POLLIN)
    while waits.poll(max(0, 1000 * (end - time.monotonic()))):
        part = os.read(pipe, 1 << 16)
        if not part:
            break
        parts.append(part)
    return b"".join(parts)


def status_of(process, end):
    """The status in which a process ends; None where it hasn't ended by that time, and is killed."""
    ended, status = os.waitpid(process, os.WNOHANG)
    while not ended:
        if time.monotonic() > end:
            os.kill(process, signal.SIGKILL)
            os.waitpid(process, 0)
            return None
        time.sleep(0.0001)
        ended, status = os.waitpid(process, os.WNOHANG)
    return os.waitstatus_to_exitcode(status)


def run(folder, words):
    """The status and the output of a run of the program in a folder; what the folder has then is known."""
    pipe, output = os.pipe()
    try:
        process = folder.begin(words, output)
    finally:
        os.close(output)
    end = time.monotonic() + SECONDS
    text = told(pipe, end)
    os.close(pipe)
    status = status_of(process, end)
    folder.look()
    return status, text


def answer(words, files):
    """What the built program answers to these words, in a folder with these files alone."""
    folder = folder_of(os.getpid())
    folder.put(files)
    status, text = run(folder, words)
    if status is None:
        return Answer("none: it was still running", "")
    for name, given in files.items():
        if folder.files.get(name) != given:
            return Answer(f"none: it changed its file {name}", "")
    saved = {name: its for name, its in folder.files.items() if name not in files}
    return Answer(status, whole_text(text.decode("latin-1"), saved))
