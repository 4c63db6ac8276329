"""Long work in a thread, with lines on standard error that tell the time gone and an estimate of the whole."""
import sys
import threading
import time

SHORTEST = 5.0  # nothing is told of work that is expected to be over sooner, and is, in seconds
BETWEEN = 30.0  # from one line to the next where lines cannot be written over


def told(seconds):
    """A length of time for people."""
    minutes, seconds = divmod(round(seconds), 60)
    hours, minutes = divmod(minutes, 60)
    return f"{hours} h {minutes:02d} min" if hours else f"{minutes} min {seconds:02d} s" if minutes else f"{seconds} s"


class Teller:
    """Writes over its line on a terminal; elsewhere a new line now and then, and only where progress was asked for."""

    def __init__(self, name, estimate, asked):
        self.name, self.estimate = name, estimate
        self.terminal = sys.stderr is not None and sys.stderr.isatty()
        self.quiet = sys.stderr is None or not (self.terminal or asked)
        self.begun, self.last, self.steps = time.monotonic(), None, ""

    def tick(self):
        gone = time.monotonic() - self.begun
        wait = 1.0 if self.terminal else BETWEEN
        recent = self.last is not None and gone - self.last < wait
        if self.quiet or recent or max(gone, self.estimate) < SHORTEST:
            return
        self.last = gone
        whole = f"about {told(self.estimate)} in all" if gone <= self.estimate else f"{told(self.estimate)} were expected"
        self.put(f"{self.name}: {told(gone)} gone, {whole}{self.steps}")

    def done(self, steps, of):
        """Told by work that counts its steps."""
        self.steps = f", {steps} of {of} fits done"

    def put(self, line):
        try:
            sys.stderr.write(f"\r{line}\x1b[K" if self.terminal else f"desk: {line}\n")
            sys.stderr.flush()
        except OSError:
            self.quiet = True

    def end(self):
        if self.terminal and self.last is not None and not self.quiet:
            self.put("")


def worked(work, teller):
    """What `work` answers or raises; meanwhile the teller ticks."""
    answer = {}

    def body():
        try:
            answer["is"] = work()
        except BaseException as fault:  # handed on to whoever waits
            answer["fault"] = fault

    thread = threading.Thread(target=body, daemon=True)
    thread.start()
    while thread.is_alive():
        teller.tick()
        thread.join(0.2)
    teller.end()
    if "fault" in answer:
        raise answer["fault"]
    return answer["is"]
