"""The program, the files that it may ask for, and runs of it in which calls fail."""
import contextlib
import dataclasses
import fcntl
import os
import pathlib
import select
import shutil
import subprocess
import sys
import threading
import time

HERE = pathlib.Path(__file__).resolve().parent
TOP = HERE.parent.parent
SECONDS = 60
NO_MEMORY = b"hypercube: there was not enough memory"
# A message, or the help that was asked for.
MESSAGES = (b"hypercube", b"Write hypercube")


@dataclasses.dataclass(frozen=True)
class End:
    """How a run ended: its status (or why it was ended), its bytes, how many calls were marked, and what it cost."""
    status: int | str
    text: bytes
    marked: int
    seconds: float
    megabytes: float


class World:
    """The program, a folder of files that it runs in, and the library that makes its calls fail."""

    def __init__(self, program, folder, texts):
        self.program = str(pathlib.Path(program).resolve())
        if not os.access(self.program, os.X_OK):
            sys.exit(f"failures: there is no program {program}")
        if shutil.which("gcc") is None:
            sys.exit("failures: there is no gcc, which builds scripts/failures/failing.c")
        self.library = str(folder / "failing.so")
        self.files = folder / "files"
        shutil.copytree(TOP / "examples", self.files / "examples")
        for name, text in texts.items():
            (self.files / name).write_text(text)
        (self.files / "folder").mkdir()
        (self.files / "round").symlink_to("round")
        (self.files / "dangling").symlink_to("gone.csv")
        subprocess.run(["gcc", "-std=c99", "-Wall", "-Wextra", "-O2", "-shared", "-fPIC", "-o", self.library,
                        str(HERE / "failing.c"), "-ldl"], check=True)

    def write(self, text):
        """Writes a long text in parts: the memory that this script has had counts for the runs that it begins."""
        count = (text.size - len(text.front) - len(text.end)) // len(text.piece)
        many = max(1, 65536 // len(text.piece))
        with open(self.files / text.name, "wb") as file:
            file.write(text.front)
            for _ in range(count // many):
                file.write(text.piece * many)
            file.write(text.piece * (count % many) + text.end)

    def run(self, words, failing="", output="pipe"):
        """Runs the program. FAILING is KIND FIRST LAST ERROR MOST, as in failing.c, or nothing if all calls are the system's."""
        mark = os.memfd_create("mark")
        environment = dict(os.environ)
        if failing:
            kind, first, last, error, most = failing.split()
            environment |= {"LD_PRELOAD": self.library, "FAILING": f"{kind} {first} {last} {error} {mark} {most}"}
        began = time.monotonic()
        with output_of(output) as (front, target):
            process = subprocess.Popen([*front, self.program, *words], cwd=self.files, env=environment, pass_fds=(mark,),
                                       stdin=subprocess.DEVNULL, stdout=target, stderr=subprocess.PIPE)
        status, text, megabytes = watched(process)
        marked = os.fstat(mark).st_size
        os.close(mark)
        return End(status, text, marked, time.monotonic() - began, megabytes)

    def calls(self, line, kind, most=0):
        """How many calls of this kind a run has."""
        return self.run(line.split(), f"{kind} 0 0 0 {most}").marked


@contextlib.contextmanager
def output_of(name):
    """The words in front of the program, and the standard output that it is given."""
    match name:
        case "pipe":
            yield [], subprocess.PIPE
        case "pipe, with a stack of 1 MB":
            yield ["sh", "-c", 'ulimit -s 1024; exec "$@"', "sh"], subprocess.PIPE
        case "closed":
            yield ["sh", "-c", 'exec "$@" >&-', "sh"], None
        case "pipe without a reader" | "pipe closed early":
            read, write = os.pipe()
            fcntl.fcntl(write, fcntl.F_SETPIPE_SZ, 4096)
            least = 0 if name == "pipe without a reader" else 100
            reader = threading.Thread(target=read_and_close, args=(read, least))
            reader.start()
            if least == 0:
                reader.join()
                wait_for_no_reader(write)
            yield [], write
            os.close(write)
        case path:
            write = os.open(path, os.O_WRONLY)
            yield [], write
            os.close(write)


def read_and_close(pipe, least):
    if least:
        os.read(pipe, least)
    os.close(pipe)


def wait_for_no_reader(pipe):
    """A run that is just being started has all open files for a moment, the other end of the pipe too."""
    poll = select.poll()
    poll.register(pipe, 0)
    poll.poll(10_000)


def watched(process):
    """The status and the bytes of a run, which is ended after a while, and the most memory that it had in megabytes."""
    late = threading.Event()

    def end():
        late.set()
        process.kill()

    timer = threading.Timer(SECONDS, end)
    timer.start()
    text = process.stdout.read() if process.stdout else b""
    said = process.stderr.read()
    _, ended, used = os.wait4(process.pid, 0)
    timer.cancel()
    process.returncode = os.waitstatus_to_exitcode(ended)
    for pipe in filter(None, (process.stdout, process.stderr)):
        pipe.close()
    status = f"none after {SECONDS} s" if late.is_set() else process.returncode
    if not is_message(status, said):
        status = f"{status} with {said!r} as its error"
    return status, text, used.ru_maxrss / 1024


def is_message(status, said):
    """Whether a run that ended so may say this. If memory is refused, it may say nothing, but for the lack of memory itself."""
    if status == 0:
        return not said
    if status == 7:
        return said.startswith(NO_MEMORY)
    return not said or said.startswith(MESSAGES)
