"""The plain octets of a link: on the worked cases of tools/cases/octets, on random values, damaged streams among them, and beside tshark."""
import unittest

from tests.asked import ASKED
from tests.octet_cases import CASES, OF_FILES, case_answers, cases
from tests.octet_dissector import dissected, header_of, some_packets, tshark
from tests.octet_laws import LAWS, law_answers

COUNT, SEED = 300, 1  # values of each law, and the first seed


class WorkedCases(unittest.TestCase):
    """What stands in the files."""

    def test_cases(self) -> None:
        """Each case is answered as it stands there."""
        number = 0
        for name in OF_FILES:
            number += len(cases(name))
            for it in case_answers(name):
                with self.subTest(it.title):
                    self.assertEqual(it.got, it.wanted)
        print(f"octets: {number} worked cases in {len(OF_FILES)} files")
        self.assertEqual(sorted(OF_FILES), sorted(it.name for it in CASES.iterdir()))


class Laws(unittest.TestCase):
    """What holds whatever is sent."""

    def test_laws(self) -> None:
        """Each law holds of so many values, or --count of them."""
        first, count = ASKED.seed_or(SEED), ASKED.count_or(COUNT)
        answers = 0
        for law in LAWS:
            for it in law_answers(law, first, first + count):
                answers += 1
                self.assertEqual(it.got, it.wanted, it.title)
        print(f"octets: {len(LAWS)} laws of {count} values each, {answers} answers")


class Dissector(unittest.TestCase):
    """What others read in a header."""

    def test_headers(self) -> None:
        """tshark sees the fields of each space packet's header that the plain reading sees. It is not tried where tshark is not installed."""
        program = tshark()
        if program is None:
            self.skipTest("tshark is not installed (Debian: tshark)")
        packets = some_packets(ASKED.count_or(COUNT), ASKED.seed_or(SEED))
        found = dissected(program, packets)
        self.assertEqual(len(packets), len(found))
        for octets, header in zip(packets, found):
            self.assertEqual(header_of(octets), header, octets.hex())
        print(f"octets: {len(found)} headers of space packets beside tshark")


if __name__ == "__main__":
    unittest.main()
