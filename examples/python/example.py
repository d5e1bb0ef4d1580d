"""A session with Khonvertseg by ctypes, the same as examples/c/example.c.

    python3 example.py [LIBRARY]

LIBRARY is the path of libkhonvertseg.so; without it KHON_LIBRARY in the environment is,
else the loader looks for that name. It is for x86-64 Linux, so Python must be too: 3.7 or
later, and nothing else is needed. All above "the session" is a binding to copy; what each
call does, and when it refuses, is told in include/khonvertseg.h.
"""
import os
import sys
from ctypes import CDLL, POINTER, Structure, c_char_p, c_size_t, c_uint8, c_uint16, c_uint32

# khon_refusal_text's words (the header has them for C alone).
REFUSAL_TEXTS = {
    0: "accepted",
    1: "the job is out of range, or its block has the wrong length",
    2: "the table has fewer cells than width times height",
    3: "no piece has this number, or the rectangle isn't inside the sheet",
    4: "the new piece is out of range",
    5: "the job has as many pieces as it can have",
    6: "a cell under the rectangle is empty: ask first",
    7: "some cell of the table is wrong: these calls didn't keep it",
    8: "the plan file is longer than the buffer",
    9: "not a plan file: its length or its way back to the block is out of range",
    10: "the plan file's running sum differs",
    11: "the plan file's block is out of range, or its trailer disagrees with it",
    12: "the plan file's nodes break a rule",
    13: "the plan file's value isn't the sum of the pieces cut",
}
SIDE_MAX = 240

class Refused(Exception):
    def __init__(self, call, number):
        super().__init__(call, number)
        self.number = number
        self.text = REFUSAL_TEXTS.get(number, "unknown refusal number")

    def __str__(self):
        return f"{self.args[0]}: refused {self.number}, {self.text}"

def struct(name, **fields):
    """A C struct. Its layout follows from the fields: order and types must be the header's."""
    return type(name, (Structure,), {"_fields_": list(fields.items())})

Piece = struct("Piece", width=c_uint16, height=c_uint16, value=c_uint16)
Job = struct("Job", width=c_uint16, height=c_uint16, count=c_uint16, pieces=Piece * 64)
Changed = struct("Changed", refusal=c_uint32, job=Job)
Asked = struct("Asked", refusal=c_uint32, value=c_uint32, worked=c_uint32)
Planned = struct("Planned", refusal=c_uint32, length=c_uint32, value=c_uint32)
Checked = struct("Checked", refusal=c_uint32, value=c_uint32, note=c_uint32,
                 piece_area=c_uint32, scrap_area=c_uint32)

# What each call answers and takes; a library doesn't say it, and ctypes can't know.
CELLS = POINTER(c_uint32), c_size_t
BYTES = c_char_p, c_size_t  # bytes that are only read: Python's own will do
CALLS = {
    "khon_open": (Changed, (c_uint32, c_uint32, *CELLS)),
    "khon_add": (Changed, (Job, *CELLS, Piece)),
    "khon_correct": (Changed, (Job, *CELLS, c_uint32, Piece)),
    "khon_remove": (Changed, (Job, *CELLS, c_uint32)),
    "khon_ask": (Asked, (*BYTES, *CELLS, c_uint32, c_uint32)),
    "khon_plan": (Planned, (*BYTES, *CELLS, c_uint32, c_uint32, POINTER(c_uint8), c_size_t)),
    "khon_check": (Checked, BYTES),
}

def accepted(answer, call, _arguments):
    if answer.refusal != 0:
        raise Refused(call.__name__, answer.refusal)
    return answer

def load(path):
    library = CDLL(path)
    for name, (answer, takes) in CALLS.items():
        call = getattr(library, name)
        call.restype, call.argtypes, call.errcheck = answer, takes, accepted
    return library

def whole(kind, *numbers):
    """The numbers, if C can hold them: ctypes alone would make 1 of 65537 and say nothing."""
    if any(kind(number).value != number for number in numbers):
        raise OverflowError(f"not every number fits {kind.__name__}: {numbers}")
    return numbers

class Sheet:
    """A job and its table of cells, which stay together from call to call. Python owns both
    and lends them while a call runs; the library keeps nothing. Other threads go on during
    a call: only one at a time may use a sheet."""
    def __init__(self, library, width, height):
        whole(c_uint32, width, height)
        # A ctypes array is aligned as C wants it. To lend memory that you have, such as an
        # array.array("I"), take (c_uint32 * length).from_buffer(it), which keeps it alive.
        cells = (c_uint32 * (min(width, SIDE_MAX) * min(height, SIDE_MAX)))()
        self.library, self.table = library, (cells, len(cells))
        self.job = library.khon_open(width, height, *self.table).job

    # A refusal is raised before the job is replaced: job and cells are then as they were.
    def add(self, width, height, value):
        piece = Piece(*whole(c_uint16, width, height, value))
        self.job = self.library.khon_add(self.job, *self.table, piece).job

    def correct(self, number, width, height, value):
        piece = Piece(*whole(c_uint16, width, height, value))
        whole(c_uint32, number)
        self.job = self.library.khon_correct(self.job, *self.table, number, piece).job

    def remove(self, number):
        self.job = self.library.khon_remove(self.job, *self.table, *whole(c_uint32, number)).job

    def block(self):
        """The job block and its length: a job in memory begins with it."""
        length = 6 + 6 * self.job.count
        return bytes(self.job)[:length], length

    def ask(self, x, y):
        return self.library.khon_ask(*self.block(), *self.table, *whole(c_uint32, x, y))

    def plan(self, x, y):
        """The plan file, from a buffer of KHON_PLAN_ENOUGH bytes for the whole sheet."""
        block, length = self.block()
        buffer = (c_uint8 * (length + 3 * (2 * self.job.width * self.job.height - 1) + 16))()
        planned = self.library.khon_plan(block, length, *self.table, *whole(c_uint32, x, y),
                                         buffer, len(buffer))
        return bytes(buffer[:planned.length])  # a copy: the buffer ends here

# ---- the session ----
def ask(sheet, x, y):
    asked = sheet.ask(x, y)
    print(f"{x} by {y}: best value {asked.value}, {asked.worked} cells worked out")

def plan_and_check(sheet, x, y):
    file = sheet.plan(x, y)
    checked = sheet.library.khon_check(file, len(file))
    print(f"plan of {x} by {y}: {len(file)} bytes, value {checked.value}, "
          f"pieces cover {checked.piece_area}, scrap {checked.scrap_area}")

def main(path):
    sheet = Sheet(load(path), 60, 40)
    for width, height, value in (13, 9, 120), (22, 17, 400), (31, 30, 1000):
        sheet.add(width, height, value)
        print(f"piece {sheet.job.count} is {width} by {height}, value {value}")
    ask(sheet, 60, 40)
    ask(sheet, 60, 40)
    plan_and_check(sheet, 60, 40)
    sheet.correct(3, 30, 30, 980)  # measured again: the next question costs what it touched
    print("piece 3 is now 30 by 30, value 980")
    ask(sheet, 29, 40)
    ask(sheet, 60, 40)
    plan_and_check(sheet, 60, 40)

if __name__ == "__main__":
    main(*sys.argv[1:] or [os.environ.get("KHON_LIBRARY") or "libkhonvertseg.so"])
