#!/usr/bin/env python3
"""Writes crates/sheet_vectors/data/cases from the outside vectors:  tools/sheet_cases.py VECTORS_FOLDER

Cases: of program.jsonl the sheet of each case, save the long ones of family `limits`, with 1,024 places; of library.jsonl each `make`, with its places.
Format, numbers big-endian, one case after the other: u32 bytes of the sheet; u16 places of the instruction store; u8 number of the
refusal, 0 if the sheet is taken; u32 place of the refusal; the sheet."""
import json
import re
import sys


def sheet_of(given):
    """As many bytes as the length field says, at most 65,536, or all there are (01, section 8)."""
    return given[: min(int.from_bytes(given[1:5], "big"), 65536)] if len(given) >= 5 else given


def case(sheet, places, number, place):
    return len(sheet).to_bytes(4, "big") + places.to_bytes(2, "big") + bytes([number]) + place.to_bytes(4, "big") + sheet


def main(folder):
    cases = []
    programs = [json.loads(line) for line in open(folder + "/program.jsonl")]
    for run in [run for run in programs if run["family"] != "limits"]:
        refused = re.match(r"sheet refused (\d+) at (\d+)\n$", run["out"])
        number, place = map(int, refused.groups()) if refused else (0, 0)
        cases.append(case(sheet_of(bytes.fromhex(run["in"])), 1024, number, place))
    for line in open(folder + "/library.jsonl"):
        for call in json.loads(line):
            if call["call"] == "make":
                answer = call["answer"]
                number, place = answer[1:] if answer[0] == "refused" else (0, 0)
                cases.append(case(bytes.fromhex(call["sheet"]), call["store"], number, place))
    open("crates/sheet_vectors/data/cases", "wb").write(b"".join(cases))
    open("crates/sheet_vectors/stdout", "w").write(f"{len(cases)} agree\n")
    print(len(cases), "cases")


main(sys.argv[1])
