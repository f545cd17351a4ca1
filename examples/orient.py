# Calls orient from Python, on K4. First make the library: examples/shared
from ctypes import CDLL, c_size_t, c_uint8, c_uint16, c_uint64
from pathlib import Path

library = CDLL(str(Path(__file__).resolve().parent.parent / "target/shared/libcornetariel.so"))
library.cornetariel_orient.restype = c_uint64
ends = (c_uint16 * 12)(0, 1, 1, 2, 2, 3, 3, 0, 3, 1, 2, 0)
kinds, heights = (c_uint8 * 6)(), (c_uint16 * 4)()
answer = library.cornetariel_orient(c_size_t(4), ends, c_size_t(12), kinds, c_size_t(6), heights, c_size_t(4))
print("number", answer & 0xFF, "and", answer >> 8 & 0xFFFFFF, "back lines")
print("kinds", *kinds, "heights", *heights)
