"""Channels from Python: channels.py LIBRARY.so. Two threads send numbers and two receive them; each sleeps on a bell of its own while it
waits. The numbers that were received are those that were sent, each once."""
import ctypes
import sys
import threading

library = ctypes.CDLL(sys.argv[1])
DONE, WAITS, CLOSED = 0, 1, 2
MANY = 20000


class End(ctypes.Structure):
    _fields_ = [("tag_plus_1", ctypes.c_uint32), ("end", ctypes.c_void_p)]


class Wakes(ctypes.Structure):
    _fields_ = [("receivers", ctypes.c_uint64), ("senders", ctypes.c_uint64)]


for name, arguments in {
    "new": [ctypes.c_uint32, ctypes.POINTER(End)],
    "split": [ctypes.POINTER(End), ctypes.POINTER(End)],
    "send": [ctypes.POINTER(End), ctypes.c_uint64, ctypes.POINTER(Wakes)],
    "receive": [ctypes.POINTER(End), ctypes.POINTER(ctypes.c_uint64), ctypes.POINTER(Wakes)],
    "close": [ctypes.POINTER(End), ctypes.POINTER(Wakes)],
    "free": [ctypes.POINTER(End), ctypes.POINTER(Wakes)],
}.items():
    call = getattr(library, f"jisthrom_channel_{name}")
    call.restype, call.argtypes = ctypes.c_uint32, arguments

bells = [threading.Semaphore(0) for _ in range(64)]


def call(name, end, *arguments):
    """The answer of a call, after whom it names was woken; it sleeps where the end has to wait, and calls again."""
    while True:
        wakes = Wakes()
        answer = getattr(library, f"jisthrom_channel_{name}")(ctypes.byref(end), *arguments, ctypes.byref(wakes))
        for tag in range(64):
            if (wakes.receivers | wakes.senders) >> tag & 1:
                bells[tag].release()
        if answer != WAITS:
            return answer
        bells[end.tag_plus_1 - 1].acquire()


def send(end, numbers):
    for number in numbers:
        assert call("send", end, number) == DONE
    call("free", end)


def receive(end, received):
    item = ctypes.c_uint64()
    while (answer := call("receive", end, ctypes.byref(item))) == DONE:
        received.append(item.value)
    assert answer == CLOSED
    call("free", end)


first, ends, received = End(), [End() for _ in range(4)], [[], []]
assert library.jisthrom_channel_new(8, ctypes.byref(first)) == DONE
for end in ends:
    assert library.jisthrom_channel_split(ctypes.byref(first), ctypes.byref(end)) == DONE
threads = [threading.Thread(target=send, args=(ends[k], range(k * MANY, (k + 1) * MANY))) for k in range(2)]
threads += [threading.Thread(target=receive, args=(ends[2 + k], received[k])) for k in range(2)]
for thread in threads:
    thread.start()
for thread in threads[:2]:
    thread.join()
call("close", first)
for thread in threads[2:]:
    thread.join()
call("free", first)
if sorted(received[0] + received[1]) != list(range(2 * MANY)):
    sys.exit("channels.py: what was received is not what was sent")
for numbers in received:
    for k in range(2):
        own = [number for number in numbers if number // MANY == k]
        if own != sorted(own):
            sys.exit("channels.py: one receiver has the numbers of one sender in another order")
