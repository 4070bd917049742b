"""Judges proposals for cases of the balancing market.

    listing = foldureem.verify(case, proposal)

gives the listing as text, or raises Refused with the number, layer and place of the question that got a no, and its words.
The shared library is the one that FOLDUREEM_LIB names, else libfoldureem.so where `make lib` puts it.
"""

import ctypes
import os
from pathlib import Path

LISTING = 65536
NO_MEMORY = 2**32 - 1
LAYERS = {1: "bytes", 2: "case", 3: "selection", 4: "prices", 5: "call"}
QUESTIONS = {
    1: "Is the header complete?",
    2: "Is the kind (word 0) 1 for a case, 2 for a proposal?",
    3: "Is every count allowed?",
    4: "Is every offset the one that the counts give, and does the file end where they say?",
    5: "Does the demand lie from −20,000,000 to 20,000,000?",
    6: "Are the border's from area and to area both areas of the case, and not the same?",
    7: "Are both limits of the border at most 20,000,000?",
    8: "Is the bid's area one of the case, and its direction 0 or 1?",
    9: "Is the bid's volume at most 9,999,000, and does its price lie from −9,999,900 to 9,999,900?",
    10: "Does the satisfied amount lie between 0 and the demand?",
    11: "Does the flow lie from minus the backward limit to the forward limit?",
    12: "Is the activated amount at most the bid's volume?",
    13: "Do the activated bids and the flows of the area add up to its satisfied amount?",
    14: "Is the area's price in the range of the scale?",
    15: "Has the area's demand what it requires of the price?",
    16: "Has the border's flow what it requires of the prices at its two ends?",
    17: "Has the bid's activated amount what it requires of its area's price?",
    18: "Does the cycle have the area, border or bid that the call names?",
    19: "Is there a standing selection?",
    20: "Is the output buffer long enough?",
}


class Refused(Exception):
    """The proposal is not taken: this question got a no at this place."""

    def __init__(self, number, layer, place):
        self.number, self.layer, self.place = number, layer, place
        self.question = QUESTIONS[number]
        super().__init__("refused %d %d %d: %s (%s, place %d)" % (number, layer, place, self.question, LAYERS[layer], place))


class _Verdict(ctypes.Structure):
    """The fields and their order are those of foldureem.h."""

    _fields_ = [("number", ctypes.c_uint32), ("layer", ctypes.c_uint32), ("place", ctypes.c_uint64), ("length", ctypes.c_uint64)]


def _load():
    path = os.environ.get("FOLDUREEM_LIB") or Path(__file__).resolve().parents[2] / "target" / "libfoldureem.so"
    library = ctypes.CDLL(str(path))
    buffer = [ctypes.c_char_p, ctypes.c_size_t]
    library.foldureem_verify.argtypes = buffer + buffer + buffer + [ctypes.POINTER(_Verdict)]
    library.foldureem_verify.restype = None
    return library


_LIBRARY = _load()


def verify(case: bytes, proposal: bytes) -> str:
    """The listing of a proposal that nothing beats; else raises Refused."""
    case, proposal = bytes(case), bytes(proposal)
    out = ctypes.create_string_buffer(LISTING)
    verdict = _Verdict()
    _LIBRARY.foldureem_verify(case, len(case), proposal, len(proposal), out, LISTING, ctypes.byref(verdict))
    if verdict.number == NO_MEMORY:
        raise MemoryError("no memory for a cycle")
    if verdict.number != 0:
        raise Refused(verdict.number, verdict.layer, verdict.place)
    return out.raw[: verdict.length].decode("ascii")
