"""What gdb counts of `bmcnet serve` as ./bmcnet keeps it, unproved, where no call is inlined: how often memory is taken, how often the system is asked
to hear or send, and how often that comes under a call that holds the lock. It writes out/gdb.log, a line each."""
import gdb

MEMORY = ["malloc", "calloc", "realloc", "memalign", "aligned_alloc", "posix_memalign"]
NAMES = {
    "memory taken": [f"__interceptor_{name}" for name in MEMORY],
    "recvfrom": ["__interceptor_recvfrom"],
    "sendto": ["__interceptor_sendto"],
    # The history gains it under the lock, so it shows that the frames below a call are seen. The seat's list gains it behind the lock.
    "an entry is filled": ["bmc_shared::entries::Events::gain"],
}
HOLDS_LOCK = "shared::Locked::"
counts = {}


def is_under_lock():
    frame = gdb.newest_frame()
    while frame is not None:
        if HOLDS_LOCK in (frame.name() or ""):
            return True
        frame = frame.older()
    return False


class Counted(gdb.Breakpoint):
    """A place that is counted, and never stops the program."""

    def __init__(self, place, name):
        super().__init__(place)
        self.name = name

    def stop(self):
        counts[self.name] += 1
        if self.name != "memory taken":
            counts[f"{self.name}, under the lock"] += is_under_lock()
        return False


gdb.execute("set breakpoint pending on")
gdb.execute("handle SIGSEGV nostop noprint pass")
for name, places in NAMES.items():
    counts[name] = 0
    if name != "memory taken":
        counts[f"{name}, under the lock"] = 0
    for place in places:
        Counted(place, name)
gdb.execute("run")
with open("out/gdb.log", "w", encoding="utf-8") as file:
    file.writelines(f"{count} {name}\n" for name, count in counts.items())
