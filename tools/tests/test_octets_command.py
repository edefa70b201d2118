"""`tcdesk octets`: all that it prints beside model/decoded.py, a reading of the standards that asks the program nothing.

Cases that were written by hand (tools/cases/decoded.txt), the octets of the worked cases of tools/cases/octets in the layers that they are of, and random texts by their
numbers. A text comes as an argument, or with others by the standard input. Then the words of the command line, files of profiles, and inputs that are long or hold nothing.
"""
import os
import re
import subprocess
import tempfile
import unittest
from collections.abc import Iterator
from random import Random
from typing import NamedTuple, Optional

from generate.octet_texts import some_text
from generate.octet_values import some_profile
from model.decoded import LAYERS, MOST_CHARACTERS, MOST_OCTETS, Answer, answer, answers
from model.octets import START, TAIL, Ad, closed, codeblock, tc_frame
from model.profiles import BadProfile, Profile, profile_of, profile_text, read_profile
from tests.asked import ASKED
from tests.decoded_cases import are_as_written, cases as written_cases
from tests.octet_cases import OF_FILES, Case, cases, hexes
from tests.runs import Ended

TEXTS, EACH, SEED = 2000, 8, 1  # random texts, those of a profile and a layer, and the first seed


class Text(NamedTuple):
    """A text of a layer, by a profile; and whether a worked case says that it is taken, if one does."""
    title: str
    profile: Profile
    layer: str
    text: str
    is_taken: Optional[bool] = None


def ended(words: list[str], text: bytes = b"", folder: str = ".") -> Ended:
    """Runs the program with these words behind `octets`, and this standard input."""
    ran = subprocess.run([ASKED.program, "octets", *words], input=text, cwd=folder, capture_output=True, timeout=600, check=False)
    return Ended(ran.returncode, ran.stdout.decode("latin-1"), ran.stderr.decode("latin-1"))


def wanted(given: Answer) -> Ended:
    """Returns how the program has to end with an answer."""
    return Ended(given.status, "".join(f"{it}\n" for it in given.lines), "")


class Program:
    """Runs of the program by profiles that lie in a folder."""

    def __init__(self, folder: str) -> None:
        """Its folder, in which no profile lies yet."""
        self.folder = folder

    def words(self, profile: Profile, layer: str, text: str) -> list[str]:
        """Returns the words for a profile, which is written to a file unless it is the standard one."""
        if profile == Profile():
            return [layer, text]
        with open(f"{self.folder}/link.profile", "w", encoding="ascii") as file:
            file.write(profile_text(profile))
        return ["--profile", "link.profile", layer, text]

    def one(self, it: Text) -> Ended:
        """Gives a text as an argument, or by the standard input if it is too long for one, or has a byte that a line may not have."""
        if len(it.text) > 100_000 or it.text == "-" or it.text.startswith("--"):
            return ended(self.words(it.profile, it.layer, "-"), it.text.encode() + b"\n", self.folder)
        return ended(self.words(it.profile, it.layer, it.text), folder=self.folder)

    def lines(self, profile: Profile, layer: str, text: bytes) -> Ended:
        """Gives lines by the standard input."""
        return ended(self.words(profile, layer, "-"), text, self.folder)


# ---- the worked cases of tools/cases/octets, as texts

def of_codes(name: str, case: Case) -> Iterator[tuple[Profile, str, bytes, Optional[bool]]]:
    """The cases of the codes, put into a frame or a CLTU that shows what they are of."""
    if name == "crc.txt":
        frame = (0x10).to_bytes(2, "big") + bytes(2) + (0x1fff).to_bytes(2, "big") + hexes(case["of"])
        whole = closed(frame + bytes(max(0, 30 - len(frame))), True)
        if len(whole) <= 2048:
            yield profile_of(f"tm.length = {len(whole)}"), "tm", whole, None
            yield profile_of(f"tm.length = {len(whole)}"), "tm", whole[:-2] + bytes.fromhex(case["crc"]), None
    elif name == "codeblocks.txt":
        block = hexes(case.get("block", "")) if "x" not in case.get("block", "x") else codeblock(hexes(case.get("info", "00 x 7")))
        for correct in (False, True):
            yield profile_of(f"tc.correct = {'yes' if correct else 'no'}"), "cltu", START + block + TAIL, None
    else:
        octets = hexes(case["octets"] if "octets" in case else case["sequence"])
        blocks = b"".join(codeblock((octets + bytes(7))[at:at + 7]) for at in range(0, min(len(octets), 1000), 7))
        yield profile_of("tc.randomizer = yes"), "cltu", START + blocks + TAIL, None


def of_layers(case: Case) -> Iterator[tuple[Profile, str, bytes, Optional[bool]]]:
    """A request through all layers."""
    profile = profile_of(case["profile"])
    for layer in ("packet", "frame", "cltu"):
        yield profile, layer, hexes(case[layer]), True


def of_frames(name: str, case: Case) -> Iterator[tuple[Profile, str, bytes, Optional[bool]]]:
    """Telecommand frames, CLTUs, and streams of these."""
    if name == "streams.txt":
        yield profile_of("tc.correct = yes" if case["mode"] == "correcting" else "defaults"), "cltu", hexes(case["stream"]), None
    elif name == "cltus.txt":
        is_greatest = case["frame"].startswith("the greatest")
        frame = tc_frame(Profile(), Ad(1, bytes(1017))) if is_greatest else hexes(case["frame"])
        yield Profile(), "frame", frame, None
        if not is_greatest:
            yield profile_of(f"tc.randomizer = {case['randomizer']}"), "cltu", hexes(case["cltu"]), None
    else:
        is_good = case["frame"].split()[0] in ("ad", "unlock", "setvr")
        octets = hexes(case["octets"]) if "first" not in case["octets"] else tc_frame(profile_of(case["profile"]), Ad(255, bytes(1017)))
        yield profile_of(case["profile"]), "frame", octets, None if is_good else False


def of_telemetry(name: str, case: Case) -> Iterator[tuple[Profile, str, bytes, Optional[bool]]]:
    """Telemetry frames, and the control words in them."""
    if name == "words.txt":
        yield profile_of("tm.length = 40"), "tm", closed(bytes.fromhex("001100001ffe") + bytes([0x55]) * 28 + hexes(case["ocf"]), True), True
    elif name == "tm_frames.txt":
        yield profile_of(case["profile"]), "tm", hexes(case["octets"]), None if len(case["frame"].split()) > 1 else False
    elif name == "markers.txt":
        for it in case["frames"].split():
            yield profile_of(case["profile"]), "tm", hexes(it), None
        yield profile_of(case["profile"]), "tm", hexes(case["stream"]), None
    else:
        for it in case["frames"].split():
            yield profile_of(case["profile"]), "tm", hexes(it), None


def of_packets(name: str, case: Case) -> Iterator[tuple[Profile, str, bytes, Optional[bool]]]:
    """Packets of both kinds."""
    profile = profile_of(case.get("profile", "defaults"))
    is_taken = None
    if name == "tc_packets.txt" and hexes(case["octets"])[:1] and hexes(case["octets"])[0] & 0x10:
        is_taken = "refused" not in case
    if name == "tm_packets.txt" and hexes(case["octets"])[:1] and not hexes(case["octets"])[0] & 0x10:
        is_taken = "report" in case or case["read"].split()[0] in ("report", "idle", "other")
    yield profile, "packet", hexes(case["octets"]), is_taken


def texts_of(name: str, case: Case) -> Iterator[tuple[Profile, str, bytes, Optional[bool]]]:
    """The texts of a worked case, each in its layer, and whether it is taken if the case says so."""
    if name in ("crc.txt", "codeblocks.txt", "randomizer.txt"):
        return of_codes(name, case)
    if name == "layers.txt":
        return of_layers(case)
    if name in ("tc_frames.txt", "cltus.txt", "streams.txt"):
        return of_frames(name, case)
    return of_packets(name, case) if "packets.txt" in name else of_telemetry(name, case)


def worked_texts() -> Iterator[Text]:
    """The texts of all worked cases but those of profiles."""
    for name in OF_FILES:
        if name != "profiles.txt":
            for case in cases(name):
                for profile, layer, octets, is_taken in texts_of(name, case):
                    yield Text(f"{name} {case['what']}", profile, layer, octets.hex(), is_taken)


class OctetsCommand(unittest.TestCase):
    """The program beside the plain reading."""

    def setUp(self) -> None:
        """A folder for profiles."""
        folder = tempfile.TemporaryDirectory()  # pylint: disable=consider-using-with
        self.addCleanup(folder.cleanup)
        self.program = Program(folder.name)

    def test_written(self) -> None:
        """Each case that was written by hand is answered so, by the plain reading and by the program."""
        written = written_cases()
        for it in written:
            with self.subTest(it.title):
                profile = profile_of(it.profile)
                plain = answer(profile, it.layer, it.text.encode())
                self.assertTrue(are_as_written(plain.lines, it.lines), plain.lines)
                self.assertEqual(wanted(plain), self.program.one(Text(it.title, profile, it.layer, it.text)))
        print(f"octets-command: {len(written)} cases by hand")

    def test_worked(self) -> None:
        """The octets of each worked case, in the layer that they are of. What it says is refused ends with status 1."""
        number = 0
        for it in worked_texts():
            number += 1
            with self.subTest(it.title):
                plain = answer(it.profile, it.layer, it.text.encode())
                self.assertEqual(wanted(plain), self.program.one(it))
                if it.is_taken is not None:
                    self.assertEqual(0 if it.is_taken else 1, plain.status, plain.lines)
        self.assertLess(170, number)
        print(f"octets-command: {number} texts of the worked cases")

    def test_profiles(self) -> None:
        """A file with a profile is read, or its first fault is told with its line."""
        for case in cases("profiles.txt"):
            with self.subTest(case["what"]):
                text = case["text"].replace("\\n", "\n").encode()
                with open(f"{self.program.folder}/some.profile", "wb") as file:
                    file.write(text)
                got = ended(["--profile", "some.profile", "frame", "30010c070000416f"], folder=self.program.folder)
                try:
                    self.assertEqual(wanted(answer(read_profile(text), "frame", b"30010c070000416f")), got)
                except BadProfile as fault:
                    self.assertEqual((2, ""), got[:2])
                    told = "line [0-9]+ .*" if fault.line else ".*"
                    self.assertRegex(got.err, f"^tcdesk: cannot use some.profile\ntcdesk: because {told.replace('[0-9]+', str(fault.line))}\n$")

    def test_random(self) -> None:
        """Random texts of each layer, by random profiles, several at once by the standard input."""
        first, count = ASKED.seed_or(SEED), ASKED.count_or(TEXTS // EACH)
        met: set[str] = set()
        for seed in range(first, first + count):
            dice = Random(seed)
            profile, layer = some_profile(dice), LAYERS[seed % len(LAYERS)]
            lines = [some_text(dice, profile, layer) for _ in range(EACH)]
            text = dice.choice(["\n", "\r\n"]).join(lines).encode() + dice.choice([b"", b"\n"])
            plain = answers(profile, layer, text)
            self.assertEqual(wanted(plain), self.program.lines(profile, layer, text), f"seed {seed}")
            met |= {re.sub("[0-9]+", "N", it.partition(", ")[2].partition(":")[0]) for it in plain.lines if ", but " in it}
        print(f"octets-command: {count * EACH} random texts, with faults of {len(met)} fields")
        if ASKED.is_whole:
            self.assertLess(30, len(met), sorted(met))


class Inputs(unittest.TestCase):
    """Inputs that are long, or hold nothing; words of the command line; and files."""

    def test_lines(self) -> None:
        """Each line is answered in its turn, with an empty line between two."""
        unlock = "30010c070000416f"
        for text in ("", "\n", "\n\n", unlock, f"{unlock}\n", f"{unlock}\r\n{unlock}", f"zz\n{unlock}\n\n", f"{unlock}\n0\n{unlock}\n", " \n", "\r", "\r\n", "\0\n", "\xe9\n"):
            with self.subTest(text):
                self.assertEqual(wanted(answers(Profile(), "frame", text.encode("latin-1"))), ended(["frame", "-"], text.encode("latin-1")))

    def test_longest(self) -> None:
        """A packet of 65,542 octets is read, one of 65,543 is not; and a line has at most 262,168 characters."""
        head = bytes.fromhex("07ffc000ffff")
        for octets in (head + bytes(MOST_OCTETS - 6), head + bytes(MOST_OCTETS - 5)):
            for separator in ("", " ", "   "):
                text = octets.hex(separator) if len(separator) == 1 else separator.join(f"{it:02x}" for it in octets)
                got = ended(["packet", "-"], f"{text}\n07ffc000000055\n".encode())
                self.assertEqual(wanted(answers(Profile(), "packet", f"{text}\n07ffc000000055\n".encode())), got)
        for length in (MOST_CHARACTERS - 1, MOST_CHARACTERS, MOST_CHARACTERS + 1, MOST_CHARACTERS + 2, MOST_CHARACTERS + 3, MOST_CHARACTERS + 4, 10 * MOST_CHARACTERS):
            for end in ("\n", "\r\n", ""):
                text = "07ffc000000055".ljust(length) + end + ("07ffc000000055" if end else "")
                with self.subTest(f"{length} characters, {end!r}"):
                    self.assertEqual(wanted(answers(Profile(), "packet", text.encode())), ended(["packet", "-"], text.encode()))

    def test_words(self) -> None:
        """Words that are no command end with status 2, and print nothing but on standard error."""
        refused: list[tuple[list[str], str]] = [
            (["frames", "00"], "tcdesk: LAYER is frame, cltu, packet or tm: frames\n"), (["", "00"], "tcdesk: LAYER is frame, cltu, packet or tm: \n"),
            (["frame"], ""), ([], ""), (["frame", "00", "00"], ""), (["--profile", "frame", "00"], ""),
            (["frame", "00", "--profile", "none"], "tcdesk: cannot use none\ntcdesk: because there is no such file\n"),
            (["frame", "00", "--profile", "."], "tcdesk: cannot use .\ntcdesk: because it is a folder\n")]
        for words, told in refused:
            with self.subTest(words):
                got = ended(words)
                self.assertEqual((2, ""), got[:2])
                self.assertEqual(told or got.err, got.err)
                self.assertNotEqual("", got.err)

    def test_help(self) -> None:
        """The help names the layers, HEX and the profile."""
        got = ended(["--help"])
        self.assertEqual((0, ""), (got.status, got.err))
        for it in ("LAYER", "HEX", "--profile <FILE>", "frame", "cltu", "packet", "tm"):
            self.assertIn(it, got.out)

    def test_ends(self) -> None:
        """An output that takes nothing, and an input that cannot be read, end with status 2."""
        with open("/dev/full", "wb") as full:
            ran = subprocess.run([ASKED.program, "octets", "frame", "00"], stdout=full, stderr=subprocess.PIPE, check=False)
        self.assertEqual((2, b"tcdesk: cannot use output\n"), (ran.returncode, ran.stderr))
        folder = os.open("/", os.O_RDONLY)
        try:
            ran = subprocess.run([ASKED.program, "octets", "frame", "-"], stdin=folder, capture_output=True, check=False)
        finally:
            os.close(folder)
        self.assertEqual((2, b"", b"tcdesk: cannot use standard input\n"), (ran.returncode, ran.stdout, ran.stderr))


if __name__ == "__main__":
    unittest.main()
