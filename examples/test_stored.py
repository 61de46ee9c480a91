"""The stored form: bytes to model and back, and the field at fault."""
import unittest

from job_pieces import E01, E01_MERGED, ELEMENTS_64, ELEMENTS_65, EMPTY, HOLDS
from stored import Fault, Model, Relation, from_bytes, to_bytes


class Stored(unittest.TestCase):
    def test_model_of_bytes(self):
        self.assertEqual(from_bytes(E01), Model((2,), (0, 1), (Relation((0, 0), ((0, 1),)),)))

    def test_bytes_of_model(self):
        for data in (EMPTY, HOLDS, E01, E01_MERGED, ELEMENTS_64):
            self.assertEqual(to_bytes(from_bytes(data)), data)

    def test_limits(self):
        many = Model((1,) * 16, tuple(range(16)), (Relation((0,) * 8, ()),) * 16)
        self.assertEqual(from_bytes(to_bytes(many)), many)
        full = Model((64,), tuple(range(64)), (Relation((0, 0), tuple((x, y) for x in range(64) for y in range(16))),))
        self.assertEqual(from_bytes(to_bytes(full)), full)

    def fault(self, offset, what, data):
        with self.assertRaises(Fault) as caught:
            from_bytes(data)
        self.assertEqual((caught.exception.offset, str(caught.exception)), (offset, f"field at offset {offset}: {what}"))

    def test_past_the_limits(self):
        self.fault(0, "more than 64 elements", ELEMENTS_65)
        self.fault(0, "more than 16 types", to_bytes(Model((0,) * 17, (), ())))
        self.fault(6 + 16 * 6, "more than 16 relations", to_bytes(Model((), (), (Relation((), ()),) * 17)))
        self.fault(8, "more than 8 columns", to_bytes(Model((1,), (0,), (Relation((0,) * 9, ()),))))
        full = Relation((0, 0), tuple((x, y) for x in range(64) for y in range(16)))
        one_more = Model((64,), tuple(range(64)), (full, Relation((0,), ((0,),))))
        self.fault(4 + 67 + 3 + 5 + 2048, "more than 2048 cells", to_bytes(one_more))

    def test_cut(self):
        short, past = "fewer than three bytes remain", "its length passes the end"
        for start, end in ((0, 4), (4, 9), (9, 19), (19, 22)):
            for length in range(start, end):
                self.fault(start, short if length - start < 3 else past, E01[:length])

    def test_rules(self):
        for offset, what, data in (
            (4, "the representative of 1 is no element", "01 0001 02  02 0002 00 02  00 0000"),
            (5, "the representative of 1 has another type", "01 0002 01 01  02 0002 00 00  00 0000"),
            (4, "the representative of 2 is an alias", "01 0001 03  02 0003 00 00 01  00 0000"),
            (4, "not one representative for each element", "01 0001 02  02 0001 00  00 0000"),
            (6, "its length is not 3 + a + c·a", "01 0000  02 0000  03 0000  00 0000"),
            (6, "its length is not 3 + a + c·a", "01 0000  02 0000  03 0004 00 0000 00  00 0000"),
            (6, "more than one row of no columns", "01 0000  02 0000  03 0003 00 0002  00 0000"),
            (6, "a column of no type", "01 0000  02 0000  03 0004 01 00 0000  00 0000"),
            (8, "an entry that is not of its column's type", "01 0001 01  02 0001 00  03 0005 01 00 0001 01  00 0000"),
            (8, "rows that do not ascend", "01 0001 01  02 0001 00  03 0006 01 00 0002 00 00  00 0000"),
            (0, "Types is due", "02 0000"),
            (3, "Roots is due", "01 0000  00 0000"),
            (6, "Relation or End is due", "01 0000  02 0000  04 0000  00 0000"),
            (6, "End has a value", "01 0000  02 0000  00 0001 00"),
            (9, "bytes after End", "01 0000  02 0000  00 0000 00"),
        ):
            self.fault(offset, what, bytes.fromhex(data))


if __name__ == "__main__":
    unittest.main()
