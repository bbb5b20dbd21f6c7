"""A second implementation of terminals: of what docs/calls.md says of reads and writes of a terminal, and
docs/machine.md of ticks and of the choice of a process, as short as the programs of terminal_rows.py allow: no signals,
no pipes, two processes, no fork that is refused, and slices that are long enough for whatever a program does before it
waits. It is written from those pages and the tables of the manuals, and shares no text with the program."""

NAMES = ["TERM", "T1", "T2", "T3"]


class Fault(Exception):
    pass


class Terminal:
    """A terminal whose calls of `key` and `put` of these numbers, counted together from 1, fail."""

    def __init__(self, keys, failing):
        self.keys, self.failing, self.calls = list(keys), failing, 0
        self.out, self.ahead, self.line, self.last, self.reader = [], [], [], [], None

    def count(self):
        self.calls += 1
        if self.calls in self.failing:
            raise Fault

    def put(self, codes):
        for code in codes:
            self.count()
            self.out.append(code)

    def key(self, tick):
        self.count()
        return self.keys.pop(0)[1] if self.keys and self.keys[0][0] <= tick else None

    def arrive(self, tick):
        """The keys that are due: a fault ends the poll, and one of a bell is passed over."""
        try:
            while (key := self.key(tick)) is not None:
                if len(self.ahead) < 256:
                    self.ahead.append(key)
                else:
                    self.bell()
        except Fault:
            pass

    def bell(self):
        try:
            self.put([7])
        except Fault:
            pass

    def drop_read(self):
        self.line, self.reader = [], None

    def read(self, process, most, effect):
        """The number of a refusal, the bytes of a read that is done, or None where it waits."""
        if self.reader not in (None, process):
            return None
        self.reader, most = process, min(most, 256)
        while self.ahead:
            echo, end = effect(self, self.ahead.pop(0), most)
            try:
                self.put(echo)
            except Fault:
                self.drop_read()
                return 245
            if end is not None:
                line = self.line
                self.drop_read()
                return 211 if end == "file" else line
        return None

    def write(self, codes):
        """The number of a refusal, or None where all is out."""
        try:
            self.put(codes)
        except Fault:
            self.drop_read()
            return 245
        return None


def screen(line):
    return [0x2E if code < 0x20 or code == 0x7F else code for code in line]


def edit(terminal, key, most):
    """A key of I$ReadLn: its echo, and how the read ends, if it does."""
    line = terminal.line
    if key == 0x08:
        echo = [8, 32, 8] if line else []
        terminal.line = line[:-1]
    elif key == 0x18:
        echo, terminal.line = [8, 32, 8] * len(line), []
    elif key == 0x04:
        echo = [13, 10] + screen(line)
    elif key == 0x01:
        terminal.line = terminal.last[: most - 1]
        echo = [8, 32, 8] * len(line) + screen(terminal.line)
    elif key == 0x0D:
        terminal.last, terminal.line = line, line + [13]
        return [13, 10], "line"
    elif key == 0x1B and not line:
        return [], "file"
    elif key != 0x1B and len(line) < most - 1:
        echo, terminal.line = screen([key]), line + [key]
    else:
        echo = [7]
    return echo, None


def move(terminal, key, most):
    """A key of I$Read."""
    if key == 0x1B and not terminal.line:
        return [], "file"
    terminal.line = terminal.line + [key]
    return [key], "line" if key == 0x0D or len(terminal.line) == most else None


class Process:
    def __init__(self, number, steps):
        self.number, self.steps, self.age = number, list(steps), 128
        self.waits, self.until = False, None


def shown(result, y, data=()):
    """What a program shows of a call: B, 256 more where it was refused, and Y; of a read that is done the bytes."""
    return list(b"%04X\r\n%04X\r\n" % (result, y)) + list(data)


class Machine:
    """Programs are lists of steps: the kind of a call, and what it takes. There are two processes at most."""

    def __init__(self, programs, keys, failing):
        self.tick, self.programs = 0, programs
        self.terms = [
            Terminal([(tick, key) for tick, name, line in keys if name == one for key in line], failing.get(one, []))
            for one in NAMES
        ]
        self.order, self.ended, self.console = [Process(2, programs["SysGo"])], [], b""

    def ready(self, process):
        kind, *rest = process.steps[0]
        if not process.waits:
            return True
        if kind in ("read", "readln"):
            terminal = self.terms[rest[0]]
            return bool(terminal.ahead) and terminal.reader in (None, process.number)
        return self.tick >= process.until if kind == "sleep" else bool(self.ended)

    def choose(self):
        ready = [process for process in self.order if self.ready(process)]
        chosen = max(ready, key=lambda process: process.age, default=None)  # the first one of the greatest age
        for process in self.order:
            process.age = min(process.age + 1, 255) if process in ready and process is not chosen else 128
        if chosen:
            self.order.remove(chosen)
            self.order.append(chosen)
        return chosen

    def attempt(self, process, kind, *rest):
        """What is shown of a call that is over; None where it waits."""
        if kind in ("read", "readln"):
            return self.read(process, kind, *rest)
        if kind in ("write", "writln"):
            return self.write(kind, *rest)
        if kind == "perr":
            fault = self.terms[0].write(list(b"ERROR #%03d\r\n" % rest[1]))
            return shown(256 + fault if fault else rest[1], 0)
        if kind == "sleep":
            return self.sleep(process, *rest)
        if kind == "fork":
            self.order.append(Process(3, self.programs[rest[0]]))
            return shown(0, 0)
        return shown(self.ended.pop(0), 0) if self.ended else None

    def read(self, process, kind, number, most):
        answer = self.terms[number].read(process.number, most, move if kind == "read" else edit)
        if answer is None:
            return None
        return shown(0, len(answer), answer) if isinstance(answer, list) else shown(256 + answer, most)

    def write(self, kind, number, text):
        line = list(text)
        if kind == "writln" and 13 in line:
            line = line[: line.index(13) + 1]
        feed = [10] if kind == "writln" and line[-1:] == [13] else []
        fault = self.terms[number].write(line + feed)
        return shown(256 + fault, len(text)) if fault else shown(0, len(line))

    def sleep(self, process, ticks):
        """Nothing is shown of it."""
        if process.until is None:
            process.until = self.tick + ticks
            return None
        process.until = None
        return []

    def turn(self, process):
        """What a process does until a call waits or it ends."""
        while process.steps[0][0] != "exit":
            answer = self.attempt(process, *process.steps[0])
            process.waits = answer is None
            if process.waits:
                return
            process.steps.pop(0)
            self.terms[3].write(answer)
        self.order.remove(process)
        if process.number != 2:
            self.ended.append(process.steps[0][1])

    def run(self, slices):
        """The status and what is written."""
        for _ in range(slices):
            if not self.order:
                return 0, self.console
            self.tick += 1
            for terminal in self.terms:
                terminal.arrive(self.tick)
            chosen = self.choose()
            if chosen:
                self.turn(chosen)
            for terminal in self.terms:
                self.console += bytes(terminal.out)
                terminal.out = []
        return (5 if self.order else 0), self.console
