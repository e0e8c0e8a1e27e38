"""Wind forces on lattice towers: Dembyhai's proved call for host programs, for Python.

The shared library is made from the static one, in the repository's root:

    (cd crates/host && rt lib)
    mkdir -p target/examples
    gcc -shared -o target/examples/libdembyhai.so -Wl,--whole-archive crates/host/out/libhost.a -Wl,--no-whole-archive

DEMBYHAI_LIBRARY names another place of it.
"""

import ctypes
import os
import struct
from pathlib import Path
from typing import List, NamedTuple, Sequence

MAX_SECTIONS = 32
MAX_FILE_BYTES = 2915
ROW = struct.Struct(">6Q")

LIBRARY = Path(__file__).resolve().parents[2] / "target" / "examples" / "libdembyhai.so"

MEANINGS = {
    2: "the file ends inside or before a field",
    3: "legs are neither 3 nor 4",
    4: "section count is 0 or above 32",
    5: "a section's width or height breaks its range, or the height is odd",
    6: "group count is 0 or above 8",
    7: "a group's kind, width or length breaks its range",
    8: "a section's bare A_S is above A_u",
    9: "item count is above 64",
    10: "an item number came earlier in the file",
    11: "an item's section does not exist",
    12: "another item field breaks its range",
    13: "bytes follow the last item",
    15: "k is above 23, or odd with three legs",
    16: "ice class is above 5",
    17: "the structure factor is not 500 to 2000",
    18: "pressures are not one per section",
    19: "a pressure is above 5000",
    20: "some section's iced A_S is above A_u",
}


class Refused(Exception):
    """The tower or the wind is refused; number is document 01's."""

    def __init__(self, number: int):
        super().__init__(f"refused {number}: {MEANINGS[number]}")
        self.number = number


class Row(NamedTuple):
    """One section's row: areas A_f, A_c and A_p in mm2, force and shear in N, moment in N mm."""

    flat: int
    subcritical: int
    supercritical: int
    force: int
    shear: int
    moment: int


def load(path=None):
    """The shared library's function."""
    library = ctypes.CDLL(str(path or os.environ.get("DEMBYHAI_LIBRARY") or LIBRARY))
    function = library.dembyhai_report
    numbers = [ctypes.c_uint32] * 3
    slices = [ctypes.c_char_p, ctypes.c_size_t]
    function.argtypes = [*slices, *numbers, *slices, *slices]
    function.restype = ctypes.c_uint32
    return function


def report(function, file: bytes, direction: int, ice: int, factor: int, pressures: Sequence[int]) -> List[Row]:
    """The rows of a tower file under a wind, from the top; raises Refused.

    A number that its C type does not hold, which ctypes would cut, is a ValueError.
    """
    if any(not 0 <= number < 2**32 for number in (direction, ice, factor)):
        raise ValueError("direction, ice and factor have 32 bits")
    if any(not 0 <= pressure < 2**16 for pressure in pressures):
        raise ValueError("a pressure has 16 bits")
    words = struct.pack(f">{len(pressures)}H", *pressures)
    rows = ctypes.create_string_buffer(MAX_SECTIONS * ROW.size)
    answer = function(file, len(file), direction, ice, factor, words, len(words), rows, len(rows))
    if answer != 0:
        raise Refused(answer)
    return [Row(*ROW.unpack_from(rows, section * ROW.size)) for section in range(len(pressures))]
