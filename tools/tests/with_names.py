#!/usr/bin/env python3
"""The tests of tools/with_names: python3 tools/tests/with_names.py

The report is of a recording of small.elf, traced by `(at (enter add) (emit (reg 1)) (emit (reg 10)))`.
"""

import pathlib
import shutil
import struct
import subprocess
import tempfile
import unittest

HERE = pathlib.Path(__file__).resolve().parent
TOOL = HERE.parent / "with_names"
ELF = HERE / "small.elf"
DATA = HERE.parent.parent / "crates" / "transcripts" / "data"
REPORT = """\
1,all,11,0,0x00010158,Done,0x0001012c 0x00000000
1,all,25,0,0x00010158,Done,0x0001012c 0x00000001
2,count,,,,,3
end,exited,35,,0x00010168,,0x00000003
regs,x,,,,,x1=0x00010144 x2=0x7fffffc0 x10=0x00000003
"""


def run(*words, given=""):
    return subprocess.run([TOOL, *words], input=given, capture_output=True, text=True)


def lines(ran):
    return ran.stdout.splitlines()


class Named(unittest.TestCase):
    def test_a_pc_has_its_function_and_its_line(self):
        ran = run(ELF, given=REPORT)
        self.assertEqual(ran.returncode, 0)
        given = REPORT.splitlines()
        self.assertEqual(lines(ran)[0], given[0] + ",add,small.c:5")
        self.assertEqual(lines(ran)[3], given[3] + ",finish+0x8,small.c:11")

    def test_a_line_without_a_pc_has_empty_columns(self):
        self.assertEqual(lines(run(ELF, given=REPORT))[2], "2,count,,,,,3,,")

    def test_words_in_text_have_theirs_on_demand(self):
        told = lines(run("--words", ELF, given=REPORT))
        self.assertTrue(told[0].endswith(",add 0x0001012c=_start+0x2c,small.c:5 0x0001012c=small.c:13"))
        self.assertTrue(told[4].endswith(",x1=0x00010144=_start+0x44,x1=0x00010144=small.c:16"))
        self.assertEqual(told[2], "2,count,,,,,3,,")

    def test_an_elf_file_without_lines(self):
        ran = run(DATA / "ledger.elf", given="1,all,385,0,0x00010244,Done,0x0001023c 0x00000000\n")
        self.assertEqual(ran.stdout, "1,all,385,0,0x00010244,Done,0x0001023c 0x00000000,open_account+0x58,\n")

    def test_a_pc_outside_of_text(self):
        ran = run(ELF, given="1,all,1,0,0x00020000,Done,\n")
        self.assertEqual(ran.stdout, "1,all,1,0,0x00020000,Done,,,\n")

    def test_what_is_no_report(self):
        ran = run(ELF, given="a,b\n")
        self.assertEqual((ran.returncode, ran.stdout), (1, ""))
        self.assertIn("has 7 fields, and this one 2", ran.stderr)

    def test_what_is_no_elf_file(self):
        ran = run(HERE / "small.c", given=REPORT)
        self.assertEqual((ran.returncode, ran.stdout), (1, ""))

    def test_without_addr2line(self):
        with tempfile.TemporaryDirectory() as room:
            (pathlib.Path(room) / "python3").symlink_to(shutil.which("python3"))
            ran = subprocess.run([TOOL, ELF], input=REPORT, capture_output=True, text=True, env={"PATH": room})
        self.assertEqual(ran.returncode, 0)
        self.assertTrue(lines(ran)[0].endswith(",add,"))
        self.assertIn("no addr2line is there", ran.stderr)

    def test_wrong_words(self):
        self.assertEqual(run().returncode, 2)
        self.assertEqual(run("--image", ELF).returncode, 2)


class Images(unittest.TestCase):
    def test_a_flat_image(self):
        image = bytes([0x13, 5, 0x50, 0])
        with tempfile.TemporaryDirectory() as room:
            rec, out = pathlib.Path(room) / "a.rec", pathlib.Path(room) / "a.bin"
            rec.write_bytes(b"SLDGREC1" + struct.pack("<III", 0, 0x10000, 4) + image + bytes(40))
            self.assertEqual(run("--image", rec, out).stdout, "flat at 0x00010000, 4 bytes\n")
            self.assertEqual(out.read_bytes(), image)

    def test_an_elf_file(self):
        with tempfile.TemporaryDirectory() as room:
            rec, out = pathlib.Path(room) / "a.rec", pathlib.Path(room) / "a.elf"
            elf = ELF.read_bytes()
            rec.write_bytes(b"SLDGREC1" + struct.pack("<III", 1, 0, len(elf)) + elf)
            self.assertEqual(run("--image", rec, out).stdout, f"ELF, {len(elf)} bytes\n")
            self.assertEqual(out.read_bytes(), elf)

    def test_a_recording_that_ends_within_its_image(self):
        with tempfile.TemporaryDirectory() as room:
            rec, out = pathlib.Path(room) / "a.rec", pathlib.Path(room) / "a.bin"
            rec.write_bytes(b"SLDGREC1" + struct.pack("<III", 0, 0x10000, 5) + bytes(4))
            self.assertEqual(run("--image", rec, out).returncode, 1)
            self.assertFalse(out.exists())


if __name__ == "__main__":
    unittest.main()
