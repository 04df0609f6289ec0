"""The processor that a measurement runs on: the best one of the machine at the time, its state, and what is said of both."""

import os
import platform
import re
import shutil
import statistics
import subprocess
import time

from shared.gate import SHARED, read_text

# The additions in a cycle from which on a processor is in its fast state. It is slow where another thread uses the same core.
FAST = 3.0


def model():
    """The name that the system has for the processor."""
    try:
        found = re.search(r"^model name\s*:\s*(.+)$", read_text("/proc/cpuinfo"), re.MULTILINE)
    except OSError:
        found = None
    return found[1] if found else platform.machine()


class Processor:
    """The processor that this process stays on, with all that it starts. Where gate/shared/processor_state.rs cannot be built, its state
    is not known."""

    def __init__(self, folder):
        self.states, self.program = [], None
        if platform.machine() == "x86_64" and shutil.which("rustc") is not None:
            self.program = os.path.join(folder, "processor_state")
            source = os.path.join(SHARED, "processor_state.rs")
            subprocess.run(["rustc", "--edition", "2024", "-O", "-o", self.program, source], check=True)
        found = {}
        for processor in sorted(os.sched_getaffinity(0)):
            os.sched_setaffinity(0, {processor})
            found[processor] = self.additions()
        self.number = max(found, key=found.get)
        os.sched_setaffinity(0, {self.number})

    def additions(self):
        """The additions in a cycle that the processor makes now, or 0 where that is not known."""
        return float(subprocess.run([self.program], stdout=subprocess.PIPE, check=True).stdout) if self.program else 0.0

    def begin_round(self):
        """Notes the state in which a round begins."""
        self.states.append(self.additions())

    def fast(self):
        """How many of the rounds that were noted began in the fast state."""
        return sum(state >= FAST for state in self.states)

    def describe(self, parts="rounds"):
        """The date, the processor, its load, and how many parts of what was measured began in the fast state, in a sentence."""
        load = f"load {os.getloadavg()[1]:.1f} on {os.cpu_count()} processors"
        text = f"Measured on {time.strftime('%Y-%m-%d')}, {model()}, {load}"
        if self.program is None or not self.states:
            return f"{text}; the state of the processor is not known."
        middle = statistics.median(self.states)
        return f"{text}; {self.fast()} of {len(self.states)} {parts} began in the fast state, {middle:.1f} additions in a cycle."
