"""Runs a script from Python: example.py LIBRARY.so SCRIPT writes the report, or the line of the first fault, to standard output."""
import ctypes
import sys

library = ctypes.CDLL(sys.argv[1])
library.jisthrom_run.restype = ctypes.c_uint32
library.jisthrom_run.argtypes = [ctypes.c_char_p, ctypes.c_size_t, ctypes.c_char_p, ctypes.c_size_t, ctypes.POINTER(ctypes.c_size_t)]
LONGER_THAN_ROOM = 6


def run(script):
    """The status and the text. The first call learns the size, and the second writes: a run by one worker is the same each time."""
    size = ctypes.c_size_t(0)
    while True:
        room = ctypes.create_string_buffer(size.value + 1)
        status = library.jisthrom_run(script, len(script), room, size.value, ctypes.byref(size))
        if status != LONGER_THAN_ROOM:
            return status, room.raw[: size.value]


with open(sys.argv[2], "rb") as file:
    status, text = run(file.read())
sys.stdout.buffer.write(text)
sys.exit(status)
