"""The jobs in jobs/: one for every number that the program can answer, in every way that matters. expected.txt says what each is for and its line."""
from job_text import LONGEST_JOB, job_bytes
from stored import field

AMPLE = 1000

# ---- models, written as document 01 writes them

def model(text):
    return bytes.fromhex(text)


EMPTY = model("01 0000  02 0000  00 0000")
V1 = model("01 0001 01  02 0001 00  00 0000")
V2 = model("01 0001 02  02 0002 00 01  00 0000")
V2_MERGED = model("01 0001 02  02 0002 00 00  00 0000")
V3_MERGED = model("01 0001 03  02 0003 00 01 01  00 0000")
TWO_TYPES = model("01 0002 01 01  02 0002 00 01  00 0000")
E01 = model("01 0001 02  02 0002 00 01  03 0007 02 00 00 0001 00 01  00 0000")
E10 = model("01 0001 02  02 0002 00 01  03 0007 02 00 00 0001 01 00  00 0000")
E00 = model("01 0001 02  02 0002 00 01  03 0007 02 00 00 0001 00 00  00 0000")
E01_MERGED = model("01 0001 03  02 0003 00 01 01  03 0007 02 00 00 0001 00 01  00 0000")
E02_ALIAS = model("01 0001 03  02 0003 00 01 01  03 0007 02 00 00 0001 00 02  00 0000")
E_DESCENDING = model("01 0001 02  02 0002 00 01  03 0009 02 00 00 0002 01 00 00 01  00 0000")
HOLDS = model("01 0000  02 0000  03 0003 00 0001  00 0000")
HOLDS_NOT = model("01 0000  02 0000  03 0003 00 0000  00 0000")
RING_012 = model("01 0001 03  02 0003 00 01 02  03 000b 02 00 00 0003 00 01 01 02 02 00  00 0000")
RING_021 = model("01 0001 03  02 0003 00 01 02  03 000b 02 00 00 0003 00 02 01 00 02 01  00 0000")
RING_OF_6 = model("01 0001 06  02 0006 00 01 02 03 04 05  03 0011 02 00 00 0006 00 01 01 02 02 03 03 04 04 05 05 00  00 0000")
TWO_RINGS = model("01 0001 06  02 0006 00 01 02 03 04 05  03 0011 02 00 00 0006 00 01 01 02 02 00 03 04 04 05 05 03  00 0000")
PAIR_AND_RING = model("01 0002 02 06  02 0008 00 01 02 03 04 05 06 07  03 0011 02 01 01 0006 02 03 03 04 04 05 05 06 06 07 07 02  00 0000")
PAIR_AND_RINGS = model("01 0002 02 06  02 0008 00 01 02 03 04 05 06 07  03 0011 02 01 01 0006 02 03 03 04 04 02 05 06 06 07 07 05  00 0000")
ELEMENTS_64 = model("01 0001 40  02 0040") + bytes(range(64)) + model("00 0000")
ELEMENTS_65 = model("01 0001 41  02 0041") + bytes(range(65)) + model("00 0000")


# ---- jobs

def job(left, right, pairs="", budget=AMPLE):
    return job_bytes(left, right, bytes.fromhex(pairs), budget)


def answered():
    """Jobs that are searched: 0, 1 and 2."""
    return {
        "found": job(E01, E10, budget=3),
        "found-nothing-to-map": job(EMPTY, EMPTY),
        "found-by-choice": job(V2, V2),
        "found-ring": job(RING_012, RING_021),
        "found-merged": job(V2_MERGED, V1),
        "found-merged-pair": job(E01_MERGED, E10, "02 00"),
        "found-nullary": job(HOLDS, HOLDS),
        "found-largest-budget": job(E01, E10, budget=2 ** 64 - 1),
        "found-longest-job": job(V2, V3_MERGED, "00 00" * 4072),
        "none": job(E01, E00),
        "none-under-pair": job(E01, E10, "00 00"),
        "none-two-images": job(V2, V2, "00 00 00 01"),
        "none-two-sources": job(V2, V2, "00 00 01 00"),
        "none-classes": job(V2, V1),
        "none-64-elements": job(ELEMENTS_64, V2),
        "none-row-counts": job(HOLDS, HOLDS_NOT),
        "none-rings": job(RING_OF_6, TWO_RINGS),
        "none-smallest-class": job(PAIR_AND_RING, PAIR_AND_RINGS),
        "budget-one-short": job(RING_OF_6, TWO_RINGS, budget=18),
        "budget-before-closing": job(EMPTY, EMPTY, budget=1),
        "budget-of-none": job(E01, E00, budget=0),
    }


def refused():
    """Jobs with a model or a pair list that is refused: 10, 12, 13, 14, 15 and 20."""
    return {
        "malformed-left": job(b"", V2),
        "malformed-right": job(V2, ELEMENTS_65),
        "malformed-rows": job(E01, E_DESCENDING),
        "malformed-after-end": job(V2 + b"\0", V2),
        "malformed-both": job(ELEMENTS_65, b""),
        "malformed-before-canonical": job(E02_ALIAS, b""),
        "not-canonical-left": job(E02_ALIAS, E01),
        "not-canonical-right": job(E01, E02_ALIAS),
        "not-canonical-before-signature": job(V2, E02_ALIAS),
        "signatures-types": job(V2, TWO_TYPES),
        "signatures-relations": job(V2, E01, "00"),
        "odd-pairs": job(E01, E10, "00 01 07"),
        "unknown-left": job(E01, E10, "02 00"),
        "unknown-right": job(E01, E10, "00 01 01 02"),
        "unknown-both": job(E01, E10, "02 02"),
        "unknown-before-conflict": job(V2, V2, "00 00 00 01 00 ff"),
        "types-of-a-pair": job(TWO_TYPES, TWO_TYPES, "00 00 01 00"),
        "types-before-unknown": job(TWO_TYPES, TWO_TYPES, "00 01 09 00"),
    }


def broken():
    """Jobs that are not "each once in this order, at most 8,192 bytes": 21."""
    left, right, pairs, budget = field(0x10, E01), field(0x11, E10), field(0x12, b""), field(0x13, bytes(8))
    end = field(0x00, b"")
    whole = left + right + pairs + budget + end
    too_long = job(V2, V3_MERGED, "00 00" * 4072 + "00")
    assert len(too_long) == LONGEST_JOB + 1
    return {
        "broken-empty": b"",
        "broken-too-long": too_long,
        "broken-field-missing": left + right + budget + end,
        "broken-field-twice": left + right + pairs + pairs + budget + end,
        "broken-order": right + left + pairs + budget + end,
        "broken-tag": left + right + field(0x14, b"") + budget + end,
        "broken-budget-of-7": left + right + pairs + field(0x13, bytes(7)) + end,
        "broken-budget-of-9": left + right + pairs + field(0x13, bytes(9)) + end,
        "broken-end-with-value": left + right + pairs + budget + field(0x00, b"\0"),
        "broken-after-end": whole + b"\0",
        "broken-no-end": left + right + pairs + budget,
        "broken-cut": whole[:-1],
        "broken-cut-in-budget": whole[:-8],
        "broken-length": left + right + pairs + b"\x13\xff\xff" + bytes(8) + end,
        "broken-before-malformed": field(0x10, b"") + right + pairs + budget,
    }


JOBS = {**answered(), **refused(), **broken()}
