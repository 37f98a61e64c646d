#!/usr/bin/env python3
"""Writes the input and the expected output of the gate's program `traces` from the cases of tests/cases: each case file
after its length, and the lines that the second implementation printed for it (the .expected file beside it)."""
import pathlib
import struct

root = pathlib.Path(__file__).resolve().parent.parent
cases = sorted((root / "tests/cases").glob("*.case"))
crate = root / "crates/traces"
(crate / "stdin").write_bytes(b"".join(struct.pack("<I", c.stat().st_size) + c.read_bytes() for c in cases))
(crate / "stdout").write_bytes(b"".join(c.with_suffix(".expected").read_bytes() for c in cases))
