"""The most memory of a child. What the system tells of it at its end counts what its parent had as it began the child, so that a large
parent hides it; it is looked at while the child runs instead."""
import threading
import time

# seconds between two looks
PAUSE = 0.001


def most_memory(pid):
    """The most memory that a process has had, in MB."""
    with open(f"/proc/{pid}/status", encoding="ascii") as file:
        return next(int(line.split()[1]) for line in file if line.startswith("VmHWM")) / 1024


class Peak:
    """The most memory that a process has had, from when this is made until the process ends."""

    def __init__(self, pid):
        self.pid, self.most = pid, 0.0
        self.thread = threading.Thread(target=self.watch, daemon=True)
        self.thread.start()

    def watch(self):
        while True:
            try:
                self.most = most_memory(self.pid)
            except (OSError, StopIteration):
                # it has ended, and has no memory
                return
            time.sleep(PAUSE)

    def end(self):
        """The MB, once the process has ended."""
        self.thread.join()
        return self.most
