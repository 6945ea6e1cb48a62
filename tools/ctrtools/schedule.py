"""Schedules by the rules of docs/schedule.md: what one holds, or the first line that is refused."""
import collections
import re

from . import samples

MOST_LINE = 255
MOST_HARTS, MOST_TASKS, MOST_IRQS, MOST_COMMANDS = 16, 64, 1024, 1 << 20
MOST_MEMORY, MOST_STEPS, MOST_STEP = 1 << 20, 10 ** 9, 10 ** 15
CAUSES = (1, 2, 3, 5, 6, 7, 9, 10, 11, 13)
ENTRIES = (16, 32, 64, 128, 256)

# The bits of the control registers (docs/records.md), and those that enable recording in a mode.
MCTRCTL, VSCTRCTL = 0xFF3E00001B87, 0xFF3E00001983
MODES, GUEST_MODES = 7, 3

# The numbers of each line, by its first word. Those in hexadecimal are in HEXADECIMAL.
FORMS = {"ctr-schedule": ["VERSION"], "harts": ["N"], "layout": ["HEX"], "branch": ["HEX"],
         "task": ["IMAGE", "MEM", "DEPTH", "MCTRCTL", "VSCTRCTL", "PERIOD"], "irq": ["TASK", "STEP", "CAUSE"],
         "images": [], "run": ["HART", "TASK", "STEPS"], "sample": ["TASK"], "evict": ["HART"], "end": []}
COMMANDS = ("run", "sample", "evict", "end")
HEXADECIMAL = ("HEX", "MCTRCTL", "VSCTRCTL")

(LONG, CUT, WORDS, NUMBER, RANGE, MANY, NO_TASK, NO_HART, NOT_RESIDENT, EMPTY_HART, IRQ_ORDER, TRAILING) = (
    "too long", "input ended", "unexpected words", "not a number", "out of range", "too many", "no such task",
    "no such hart", "task is on no hart", "hart has no task", "interrupts out of order", "input goes on")


class Refused(Exception):
    """The first line that is refused: its number, the text for it, and the place of the word at fault, or none."""

    def __init__(self, line, text, word=None):
        super().__init__("line %d: %s" % (line, text))
        self.line, self.text, self.word = line, text, word


Task = collections.namedtuple("Task", "image mem depth mctrctl vsctrctl period")
Command = collections.namedtuple("Command", "word numbers")


class Schedule:
    """What a schedule holds, as far as it was read: the attributes are filled line by line."""

    def __init__(self, text):
        self.text, self.at, self.line = text, 0, 0
        self.start, self.words, self.expected = 0, [], ()  # of the line that is read now
        self.version = self.harts = self.layout = self.branch = 0
        self.tasks, self.irqs, self.images, self.commands = [], [], [], []
        self.images_at = None        # where the images begin, and after them the first line of commands
        self.commands_at = None
        self.places = {}             # the hart of each task that is on one
        self.left = {}               # the line at which a task last left its hart
        self.steps, self.asked = collections.Counter(), collections.Counter()  # steps and `sample` lines of each task
        self.moves = bytearray()     # the accepted commands, each `run` with 0 steps
        self.refused = None
        try:
            self.read()
        except Refused as refused:
            self.refused, self.at = refused, self.start

    def without_steps(self):
        """The same text, in which each accepted `run` makes no step. It moves its task as before, so the same line is
        refused for the same reason."""
        if self.commands_at is None:
            return self.text
        return self.text[:self.commands_at] + self.moves + self.text[self.at:]

    def refuse(self, text, word=None):
        raise Refused(self.line, text, word)

    def read(self):
        self.version, = self.expect("ctr-schedule").numbers
        self.harts, = self.expect("harts").numbers
        self.layout, = self.expect("layout").numbers
        if self.version == 2:
            self.branch, = self.expect("branch").numbers
        self.read_tasks()
        self.read_images()
        while self.next_command():
            pass
        if self.at < len(self.text):
            self.start, self.words, self.expected = self.at, [], ()
            self.line += 1
            self.refuse(TRAILING)

    def read_line(self):
        """The next line cut into its words."""
        self.line += 1
        self.start, self.words = self.at, []
        end = self.text.find(b"\n", self.at, self.at + MOST_LINE + 1)
        if end < 0:
            self.refuse(LONG if len(self.text) - self.at > MOST_LINE else CUT)
        self.words = self.text[self.at:end].split(b" ")
        self.at = end + 1

    def expect(self, *firsts):
        """The next line, which begins with one of some words, as its word and its numbers. The rules that need no more
        than the line apply here, in their order."""
        self.expected = firsts
        self.read_line()
        first = self.words[0].decode("latin-1")
        if first not in firsts:
            self.refuse(WORDS, 0)
        names = FORMS[first]
        if len(self.words) != 1 + len(names):
            self.refuse(WORDS)
        numbers = []
        for i, (word, name) in enumerate(zip(self.words[1:], names), 1):
            form, base = (rb"[0-9a-fA-F]+", 16) if name in HEXADECIMAL else (rb"[0-9]+", 10)
            if not re.fullmatch(form, word):
                self.refuse(NUMBER, i)
            numbers.append(int(word, base))
        for i, name in enumerate(names):
            if not in_range(first, name, numbers, numbers[i]):
                self.refuse(RANGE, 1 + i)
        return Command(first, numbers)

    def read_tasks(self):
        expected, last = ("task",), {}
        while True:
            line = self.expect(*expected)
            if line.word == "images":
                return
            if line.word == "task":
                if len(self.tasks) == MOST_TASKS:
                    self.refuse(MANY)
                self.tasks.append(Task(*line.numbers))
                expected = ("task", "irq", "images")
            else:
                self.add_irq(line.numbers, last)
                expected = ("irq", "images")

    def add_irq(self, numbers, last):
        task, step, cause = numbers
        if len(last.get(task, ())) == MOST_IRQS:
            self.refuse(MANY)
        if task >= len(self.tasks):
            self.refuse(NO_TASK, 1)
        before = last.setdefault(task, [])
        if before and (step, cause) <= before[-1]:
            self.refuse(IRQ_ORDER, 2 if step < before[-1][0] else 3)
        before.append((step, cause))
        self.irqs.append((task, step, cause))

    def read_images(self):
        self.images_at = self.at
        for task in self.tasks:
            image = self.text[self.at:self.at + task.image]
            self.images.append(image)
            if len(image) < task.image:
                self.refuse(CUT)
            self.at += task.image
        self.commands_at = self.at

    def next_command(self):
        """Reads and performs a command, without its steps; whether another one may follow it."""
        command = self.expect(*COMMANDS)
        word, numbers = command
        if word == "end":
            self.moves += b"end\n"
            return False
        if len(self.commands) == MOST_COMMANDS:
            self.refuse(MANY)
        if word != "evict" and self.named_task(command) >= len(self.tasks):
            self.refuse(NO_TASK, 2 if word == "run" else 1)
        if word != "sample" and numbers[0] >= self.harts:
            self.refuse(NO_HART, 1)
        if word == "sample" and numbers[0] not in self.places:
            self.refuse(NOT_RESIDENT, 1)
        if word == "evict" and numbers[0] not in self.places.values():
            self.refuse(EMPTY_HART, 1)
        if word == "run":
            self.move(numbers[1], numbers[0])
            self.steps[numbers[1]] += numbers[2]
        elif word == "sample":
            self.asked[numbers[0]] += 1
        else:
            self.leave(numbers[0])
        self.commands.append(command)
        self.moves += b"run %d %d 0\n" % tuple(numbers[:2]) if word == "run" else self.text[self.start:self.at]
        return True

    @staticmethod
    def named_task(command):
        return command.numbers[1 if command.word == "run" else 0]

    def move(self, task, hart):
        if self.places.get(task) != hart:
            self.leave(hart)
            self.places[task] = hart

    def leave(self, hart):
        for task in [task for task, place in self.places.items() if place == hart]:
            del self.places[task]
            self.left[task] = self.line


def in_range(first, name, numbers, number):
    """Whether a number of a line is in its range; `numbers` are all of its line."""
    if name == "HEX":
        if first == "branch":
            return number in (0, samples.HW_INDEX)
        return number & ~samples.KNOWN == 0 and number & samples.BRANCH_STACK != 0
    if name == "IMAGE":
        return number <= numbers[1]
    if name == "MEM":
        return 4 <= number <= MOST_MEMORY and number % 4 == 0
    if name == "CAUSE":
        return number in CAUSES
    least, most = {"VERSION": (1, 2), "N": (1, MOST_HARTS), "DEPTH": (0, 4), "MCTRCTL": (0, 2 ** 64 - 1),
                   "VSCTRCTL": (0, 2 ** 64 - 1), "PERIOD": (0, MOST_STEPS), "STEP": (0, MOST_STEP),
                   "STEPS": (0, MOST_STEPS)}.get(name, (0, number))
    return least <= number <= most
