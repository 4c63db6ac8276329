"""Many days: each a submission and its sheet, worked out as processes of their own."""
import os
import subprocess
import sys
import threading
from concurrent.futures import ThreadPoolExecutor, as_completed

from . import arguments, files, sheets, texts
from .faults import BadInput, Fault, reason, shown

PACKAGES = os.path.dirname(os.path.dirname(os.path.dirname(os.path.abspath(__file__))))


def listed(path):
    """Line, submission and sheet of each day; empty lines and those that begin with # are passed over."""
    days = []
    for line, text in enumerate(files.read(path).decode("utf-8", "replace").splitlines(), 1):
        cells = text.split()
        if not cells or cells[0].startswith("#"):
            continue
        if len(cells) != 2:
            raise BadInput(f"{path}: line {line}: a submission and a sheet are needed, and there is {shown(text)}")
        days.append((line, *cells))
    targets = {}
    for line, submission, sheet in days:
        other = targets.setdefault(os.path.realpath(sheet), line)
        if other != line:
            raise BadInput(f"{path}: line {line}: the sheet {sheet} stands already in line {other}")
    return days


def is_done(submission, sheet):
    """Whether the sheet is there, whole, and of this submission."""
    try:
        return os.path.exists(sheet) and sheets.read(sheet).digest == texts.digest_of(files.read(submission))
    except Fault:
        return False


class Runner:
    """Runs days; an end that comes from outside ends the processes, too."""

    def __init__(self):
        self.running, self.lock, self.stopped = set(), threading.Lock(), False

    def day(self, submission, sheet):
        """Status and sentence of a day."""
        if is_done(submission, sheet):
            return 0, f"{sheet}: there already"
        try:
            status, said = self.process(submission, sheet)
            if status == 0:
                made = sheets.read(sheet)
                return 0, f"{sheet}: done, kept {len(made.rows)} final {made.final}"
        except Fault as fault:
            status, said = fault.status, str(fault)
        except OSError as error:
            status, said = 3, f"could not be begun: {reason(error)}"
        return status, f"{sheet}: failed with status {status}: {said}"

    def process(self, submission, sheet):
        command = [sys.executable, "-m", "pozsmeteg.desk", "sheet", submission, "-o", sheet]
        paths = os.pathsep.join(filter(None, [PACKAGES, os.environ.get("PYTHONPATH")]))
        with self.lock:
            if self.stopped:
                return 3, "not begun"
            process = subprocess.Popen(
                command, stdin=subprocess.DEVNULL, stdout=subprocess.DEVNULL, stderr=subprocess.PIPE, env={**os.environ, "PYTHONPATH": paths})
            self.running.add(process)
        said = process.communicate()[1].decode("utf-8", "replace").strip()
        with self.lock:
            self.running.discard(process)
        if process.returncode < 0:
            return 3, f"ended by signal {-process.returncode}"
        return process.returncode, said.splitlines()[-1].replace("desk: ", "", 1) if said else "it said nothing"

    def stop(self):
        with self.lock:
            self.stopped = True
            for process in self.running:
                process.terminate()


def run(options):
    days = listed(options.list)
    if options.line is not None:
        days = [day for day in days if day[0] == options.line]
    runner, statuses = Runner(), [0]
    with ThreadPoolExecutor(options.jobs) as pool:
        try:
            for future in as_completed([pool.submit(runner.day, submission, sheet) for line, submission, sheet in days]):
                status, sentence = future.result()
                statuses.append(status)
                print(sentence, flush=True)
        except BaseException:
            runner.stop()
            raise
    failed = sum(status != 0 for status in statuses)
    print(f"{len(statuses) - 1 - failed} of {len(days)} days have their sheet, {failed} failed")
    return max(statuses)


def register(add):
    parser = add(
        "days", run, "works out the sheets of a list of days, each as a process of its own; a sheet that is there and of its submission stays\n"
        "(a line of LIST is a submission and a sheet, separated by white space; the paths are those of the current folder)",
        "desk days year.txt --jobs 4", "desk days year.txt --line 17")
    parser.add_argument("list", metavar="LIST", help="a text file with a submission and a sheet in each line")
    parser.add_argument("--jobs", metavar="N", type=arguments.count("--jobs"), default=1, help="so many at once (default: 1)")
    parser.add_argument("--line", metavar="K", type=arguments.count("--line"), help="only the day in line K of the list, as for an array job")
