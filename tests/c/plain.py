"""The shared library from Python, by ctypes. The argument is the folder that has libiddqd.so."""

import ctypes
import sys

OK, MISSING, DUPLICATE, HANDLE = 0, 1, 2, 5


class Table(ctypes.Structure):
    _fields_ = [("at", ctypes.c_void_p), ("state", ctypes.c_uint64)]


class Row(ctypes.Structure):
    _fields_ = [("second", ctypes.c_uint64), ("value", ctypes.c_uint64), ("index", ctypes.c_uint32)]


class End(ctypes.Structure):
    _fields_ = [("second", ctypes.c_uint64), ("index", ctypes.c_uint32), ("side", ctypes.c_uint32)]


class Conflict(ctypes.Structure):
    _fields_ = [("first", ctypes.c_uint32), ("second", ctypes.c_uint32)]


def key(text):
    """A key of these bytes, as two arguments."""
    return (ctypes.c_uint8 * len(text)).from_buffer_copy(text), ctypes.c_size_t(len(text))


def main():
    library = ctypes.CDLL(f"{sys.argv[1]}/libiddqd.so")
    table, row, conflict, index = Table(), Row(), Conflict(), ctypes.c_uint32()
    at = ctypes.byref(table)

    def insert(text, second, value):
        return library.iddqd_keyed_insert(at, *key(text), ctypes.c_uint64(second), ctypes.c_uint64(value),
                                          ctypes.byref(index), ctypes.byref(conflict))

    assert insert(b"ada", 7, 100) == HANDLE
    assert library.iddqd_keyed_new(at, ctypes.c_uint64(1), ctypes.c_uint64(2)) == OK
    assert insert(b"ada", 7, 100) == OK
    assert insert(b"\0\xff", 8, 200) == OK
    assert insert(b"ada", 9, 300) == DUPLICATE and conflict.first == 0
    assert library.iddqd_keyed_find1(at, *key(b"\0\xff"), ctypes.byref(row)) == OK and row.value == 200
    assert library.iddqd_keyed_find1(at, *key(b"\0"), ctypes.byref(row)) == MISSING
    rows, count = (Row * 5)(), ctypes.c_size_t()
    whole = ctypes.byref(End())
    assert library.iddqd_keyed_range(at, whole, whole, rows, ctypes.c_size_t(5), ctypes.byref(count)) == OK
    assert [row.second for row in rows[:count.value]] == [7, 8]
    library.iddqd_free(at)
    assert insert(b"ada", 7, 100) == HANDLE
    print("plain.py: ok")


main()
