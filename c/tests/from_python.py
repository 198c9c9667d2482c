# SPDX-License-Identifier: Apache-2.0
"""The shared library from Python: python3 c/tests/from_python.py out/c/librokdaum.so"""

import ctypes
import sys


class Host(ctypes.Structure):
    _fields_ = [("mark", ctypes.c_uint64), ("at", ctypes.c_void_p), ("allocator", ctypes.c_void_p)]


class Options(ctypes.Structure):
    _fields_ = [(name, ctypes.c_uint32) for name in ("daram", "saram", "external")] + [("channels", ctypes.c_uint8), ("poisoned", ctypes.c_uint8), ("poison", ctypes.c_int16)]


def main() -> int:
    library = ctypes.CDLL(sys.argv[1])
    library.rokdaum_error_text.restype = ctypes.c_char_p
    host, options, given = Host(), Options(4096, 4096, 4096, 1, 0, 0), ctypes.c_uint32()
    samples = (ctypes.c_int16 * 4)(100, 200, 300, 400)
    out = (ctypes.c_int16 * 4)()
    said = [
        library.rokdaum_open(ctypes.byref(host), ctypes.byref(options)),
        library.rokdaum_create(ctypes.byref(host), 0, 0, 0, (ctypes.c_int16 * 2)(16384, 16384), ctypes.c_size_t(2), None),
        library.rokdaum_chain(ctypes.byref(host), 0, (ctypes.c_uint8 * 1)(0), ctypes.c_size_t(1)),
        library.rokdaum_feed(ctypes.byref(host), 0, samples, ctypes.c_size_t(4), out, ctypes.c_size_t(4), ctypes.byref(given)),
        library.rokdaum_feed(None, 0, samples, ctypes.c_size_t(4), out, ctypes.c_size_t(4), ctypes.byref(given)),
        library.rokdaum_close(ctypes.byref(host)),
        library.rokdaum_close(ctypes.byref(host)),
    ]
    print(said, list(out), given.value, library.rokdaum_error_text(18).decode())
    return 0 if (said, list(out), given.value) == ([0, 0, 0, 0, 24, 0, 18], [50, 150, 250, 350], 4) else 1


if __name__ == "__main__":
    sys.exit(main())
