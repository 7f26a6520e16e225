#!/usr/bin/env python3
"""Calls mulkavesh_edit, without gc and without producers: edit_call.py LIBRARY EDITS SECONDS < IN > OUT.

Its status is the call's. The processor seconds of the call alone, the least of some calls, are left in the file SECONDS.
"""
import ctypes
import mmap
import pathlib
import sys
import time

NO_PRODUCERS = 2
# An output may have so many times the bytes that are handed over, and so many more.
TIMES, BESIDE = 4, 1 << 20
# It is called so often, but not again where it has taken so many seconds.
MOST_CALLS, ENOUGH_SECONDS = 5, 0.5


def main():
    library, edits, seconds = sys.argv[1:]
    edit = ctypes.CDLL(library).mulkavesh_edit
    edit.restype = ctypes.c_uint32
    data, listed = sys.stdin.buffer.read(), pathlib.Path(edits).read_bytes()
    room = TIMES * (len(data) + len(listed)) + BESIDE
    # its pages aren't there before they are written
    output, length = mmap.mmap(-1, room), ctypes.c_size_t()
    where = ctypes.c_char_p, ctypes.c_size_t
    edit.argtypes = *where, ctypes.c_uint32, *where, ctypes.c_void_p, ctypes.c_size_t, ctypes.POINTER(ctypes.c_size_t)
    handed = data, len(data), NO_PRODUCERS, listed, len(listed), ctypes.addressof(ctypes.c_char.from_buffer(output)), room, ctypes.byref(length)
    taken = []
    while len(taken) < MOST_CALLS and sum(taken) < ENOUGH_SECONDS:
        begin = time.process_time()
        status = edit(*handed)
        taken.append(time.process_time() - begin)
    pathlib.Path(seconds).write_text(str(min(taken)), encoding="ascii")
    if status == 0:
        sys.stdout.buffer.write(memoryview(output)[: length.value])
    sys.exit(status)


main()
