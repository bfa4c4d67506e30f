"""`esc_sheet` of libc_calls.a, in this process."""
import ctypes
import os
import subprocess
import sys

# bytes before and behind a lent output, where nothing may be written; the most of all three
GUARD = 64
MOST = 16 * 1024
# what stands in the lent count before a call
UNCOUNTED = 0x5a5a5a5a5a


def loaded(archive, folder):
    """The call of an archive, which is linked as a shared library in a folder."""
    shared = os.path.join(folder, "calls.so")
    linker = [os.environ.get("CC", "gcc"), "-shared", "-o", shared, "-Wl,--whole-archive", archive, "-Wl,--no-whole-archive"]
    subprocess.run(linker, check=True)
    call = ctypes.CDLL(shared).esc_sheet
    call.restype = ctypes.c_uint8
    data, size = ctypes.c_void_p, ctypes.c_size_t
    call.argtypes = [data, size, data, size, ctypes.c_uint8, data, size, ctypes.POINTER(size)]
    return call


class Sheets:
    """The call, and the memory that it is lent."""

    def __init__(self, archive, folder, g):
        self.call = loaded(archive, folder)
        self.memory = bytearray(MOST)
        self.start = ctypes.addressof((ctypes.c_uint8 * MOST).from_buffer(self.memory))
        # none of these is a character of a sheet
        self.found = bytes(128 | byte for byte in g.randbytes(2 * MOST))
        self.calls = 0

    def lend(self, room):
        """Memory for a room and what is before and behind it, as it is found."""
        at = self.calls % MOST
        found = self.found[at:at + room + 2 * GUARD]
        self.memory[:len(found)] = found
        return found

    def written(self, data, motors, magnets, room):
        """The answer, the count, the memory as it was found and as it is left."""
        self.calls += 1
        found = self.lend(room)
        # an empty one has a place in memory, too
        lent = [ctypes.create_string_buffer(bytes(part), len(part) + 1) for part in (data, motors)]
        count = ctypes.c_size_t(UNCOUNTED)
        number = self.call(lent[0], len(data), lent[1], len(motors), magnets, self.start + GUARD, room, ctypes.byref(count))
        if [part.raw[:-1] for part in lent] != [data, motors]:
            sys.exit(f"sheets: {len(data)} bytes of samples, map {motors.hex(' ')}: one of them was written to")
        return number, count.value, found, bytes(self.memory[:len(found)])
