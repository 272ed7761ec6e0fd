"""A hook that hears of crashes, of restarts, and of a run that halts since its disk is full."""

import logging
import threading
import time

from pundewo import History
from pundewo.runtime import Address, Behaviour, Context, Crash, Event, Halt, Halted, Message, Restart, Runtime, Supervisor


class Pager(logging.Handler):
    def emit(self, record: logging.LogRecord) -> None:
        report = getattr(record, "report", None)
        if isinstance(report, Halt):
            print(f"call somebody: {report}")
        elif isinstance(report, (Crash, Restart)):
            print(report)


class Line(Behaviour):
    def started(self, cx: Context) -> None:
        cx.register("line")

    def handle(self, cx: Context, event: Event) -> None:
        if isinstance(event, Message) and event.value == "noise":
            raise ValueError("noise")


def full(history: History) -> None:
    raise OSError("no space left on device")


def runs(runtime: Runtime) -> None:
    try:
        runtime.run(forever=True)
    except OSError:
        pass  # (it is reported, and `run` may be called again once there is room)


def another(runtime: Runtime, than: object) -> Address:
    """The line, once it is another one than this."""
    while (line := runtime.whereis("line")) is None or line == than:
        time.sleep(0.001)
    return line


def main() -> None:
    logger = logging.getLogger("pundewo")
    logger.addHandler(Pager())
    logger.propagate = False
    runtime = Runtime(archive=full)
    thread = threading.Thread(target=runs, args=(runtime,))
    thread.start()
    runtime.spawn(Supervisor.one_for_one().permanent(Line, "line"))
    line = another(runtime, None)
    line.send("noise")
    another(runtime, line)
    runtime.go_on()
    try:
        runtime.wait()
    except Halted as halted:
        print(f"the program is told: {halted}")
    thread.join()
    runtime.close()


if __name__ == "__main__":
    main()
