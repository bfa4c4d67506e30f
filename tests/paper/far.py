"""A sheet of more than a million pages, in little memory.

Its samples are zeros, which the system shows without holding them. The addresses of its output lead to the same
memory again and again, so that only what was written last is left.
"""
import ctypes
import mmap
import os
import sys

from page import ON_PAGE, PAGE, SAMPLE, Sample, page

LAST = 1_000_002
MOTORS, MAGNETS = b"\4\2\1\3", 14
# the least number of pages whose characters fill whole pages of memory
ROUND = mmap.PAGESIZE // 2
# MAP_FIXED and MAP_NORESERVE
FIXED, UNHELD = 0x10, 0x4000


def mapper():
    call = ctypes.CDLL(None, use_errno=True).mmap
    call.restype = ctypes.c_void_p
    call.argtypes = [ctypes.c_void_p, ctypes.c_size_t, ctypes.c_int, ctypes.c_int, ctypes.c_int, ctypes.c_long]

    def mapped(size, protection, flags, at=None, file=-1):
        place = call(at, size, protection, flags, file, 0)
        if place == ctypes.c_void_p(-1).value:
            sys.exit(f"sheets: no memory: {os.strerror(ctypes.get_errno())}")
        return place

    return mapped


def far(call):
    """The number of the last page, up to which the sheet is as wanted."""
    mapped, nowhere = mapper(), mmap.MAP_PRIVATE | mmap.MAP_ANONYMOUS | UNHELD
    data, room, again = SAMPLE.size * ON_PAGE * LAST, PAGE * LAST, PAGE * ROUND
    file = os.memfd_create("sheet")
    os.truncate(file, again)
    samples = mapped(data, mmap.PROT_READ, nowhere)
    out = mapped(room + again, mmap.PROT_READ, nowhere)
    for at in range(0, room, again):
        mapped(again, mmap.PROT_READ | mmap.PROT_WRITE, mmap.MAP_SHARED | FIXED, out + at, file)
    count = ctypes.c_size_t()
    number = call(samples, data, MOTORS, len(MOTORS), MAGNETS, out, room, ctypes.byref(count))
    if (number, count.value) != (0, room):
        sys.exit(f"sheets: {LAST} pages: answer {number}, count {count.value}")
    left = os.pread(file, again, 0)
    os.close(file)
    # the same place of memory was written last by the last page that has it
    for number in range(LAST - ROUND + 1, LAST + 1):
        at = (number - 1) % ROUND * PAGE
        if left[at:at + PAGE] != page(number, [Sample(*[0] * 8)] * ON_PAGE, MOTORS, MAGNETS):
            sys.exit(f"sheets: page {number} of {LAST} is not as wanted: {left[at:at + PAGE][:54]}")
    return LAST
