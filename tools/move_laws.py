#!/usr/bin/env python3
"""Moves files of laws from specs/ to proofs/, where a must-fail edit of a definition would make them read as unreadable.

usage: python3 tools/move_laws.py        at the top; again does nothing more

Today's rt takes an edit of a definition for one that can't be read, and not for one that is refused, where a theorem
that rests on the definition stands in specs/ and other theorems rest on that. So such files, and what imports them
within the crate's specs/, stand in proofs/. A statement stays as it is. The line of the module goes from specs/Lib.antt
to proofs/Lib.antt, and each import, and each path in a page, a comment or an edit, follows.
"""
import glob
import os
import re
import subprocess

# crate: its modules that move.
MOVES = {
    "address": ["BucketLaws"],
    "chain": ["SearchLaws", "DecodeLaws"],
    "crc32c": ["InjectiveLaws"],
    "cuts": ["TestedLaws", "JournalledLaws", "EventLaws", "Demand3Theorem", "PlanCallLaws", "HalvesTheorem"],
    "endian": ["EndianLaws"],
    "gauge": ["GaugeLaws", "GaugeTheorem", "GaugeExamples"],
    "image": [
        "MetaLaws", "PairRuleLaws", "BoundLaws", "EncodeLaws", "EncodePagesLaws", "EncodeDecodeLaws",
        "EncodeFitsLaws", "EncodeChainsLaws", "EncodeBitmapLaws", "EncodeVerdictLaws", "SoundFieldsLaws",
        "SoundBlocksLaws", "SoundChainsLaws", "SoundBitsLaws", "SoundImagesLaws", "SoundIndexLaws", "BeforeLaws",
        "BeforeTheorem", "BridgeTheorem",
    ],
    "journal": [
        "LoopLaws", "PlanLaws", "ValidLaws", "RecoverLaws", "LookLaws", "StageLaws", "CrashLaws", "WholeLaws",
        "AlteredLaws", "PlannedLaws", "LinkLaws", "BecomesLaws", "CrashTheorem", "WrittenLaws",
    ],
    "line": ["CommaLaws", "FitsLaws"],
    "model": [
        "ViewLaws", "HeldLaws", "LaidLaws", "InsertLaws", "RemoveLaws", "StepLaws", "FormatLaws", "WorkLaws",
        "SqueezeLaws", "PackedLaws", "SpareLaws", "MatchesLaws", "CountLaws", "RoomLaws", "StepsLeftLaws",
        "BusyChainLaws", "BusyInsertLaws", "BusyRemoveLaws", "BeginLaws", "FrameLaws", "SqueezeStepLaws",
        "KindLaws", "BoundLaws", "MachineLaws", "CounterexampleLaws", "RunLaws", "BusyLaws", "BusyTheorem",
        "NumberLaws", "Demand3AnswerLaws", "ShiftLaws", "Demand3SqueezeLaws", "Demand3InvLaws", "Demand3MomentLaws",
        "Demand3HoldLaws", "Demand3Theorem", "SimulationLaws", "TransferLaws", "BusyTransferLaws",
    ],
    "outcomes": [
        "OutcomeLaws", "OutcomeIndexLaws", "OutcomeSoundLaws", "NumberLaws", "OutcomeHistoryLaws",
        "OutcomeMachineLaws", "Demand3Theorem", "InUseLaws", "SqueezeLaws", "SqueezeTheorem", "BusyTheorem",
        "RoomLaws", "RoomTheorem", "CardsLaws",
    ],
    "page": ["RuleLaws", "RunPartLaws", "RunLaws"],
    "store": ["CheckLaws", "ChangeLaws", "FinishLaws"],
}

# Pages that tell what was so at their time, and the scripts that ran once.
HISTORY = ("docs/PORT.md", "docs/changes/", "tools/")


def read(path):
    with open(path, encoding="utf-8") as f:
        return f.read()


def write(path, text):
    with open(path, "w", encoding="utf-8") as f:
        f.write(text)


def move(crate, module):
    old, new = (f"crates/{crate}/{part}/{module}.antt" for part in ("specs", "proofs"))
    if os.path.exists(old):
        os.makedirs(os.path.dirname(new), exist_ok=True)
        subprocess.run(["git", "mv", old, new], check=True)
    line = f"pub mod {module}"
    specs, proofs = (f"crates/{crate}/{part}/Lib.antt" for part in ("specs", "proofs"))
    lines = read(specs).split("\n")
    if line in lines:
        lines.remove(line)
        write(specs, "\n".join(lines))
    lines = read(proofs).rstrip("\n").split("\n") if os.path.exists(proofs) else []
    if line not in lines:
        lines = [it for it in lines if it != f"mod {module}"] + [line]
        write(proofs, "\n".join(lines) + "\n")


def pages():
    said = subprocess.run(["git", "ls-files", "-co", "--exclude-standard"], check=True, capture_output=True, text=True)
    return [it for it in said.stdout.split("\n") if it.endswith((".antt", ".rt", ".edit", ".md")) and os.path.isfile(it)]


def follow(path, text):
    """The text of this file, with each import and path of what has moved as it is now."""
    own = path.split("/")[1] if path.startswith("crates/") else ""
    for crate, modules in MOVES.items():
        if not modules or crate not in text and crate != own:
            continue
        any_of = "|".join(modules)
        text = re.sub(rf"\bRattle\.{crate}\.specs\.({any_of})(?![\w'])", rf"Rattle.{crate}.proofs.\1", text)
        text = re.sub(rf"(?<![\w-]){crate}/specs/({any_of})(?![\w'])", rf"{crate}/proofs/\1", text)
        if crate == own:
            text = re.sub(rf"(?<![\w/])specs/({any_of})(?![\w'])", r"proofs/\1", text)
    return text


def main():
    for crate, modules in MOVES.items():
        for module in modules:
            move(crate, module)
    changed = 0
    for path in pages():
        if path.startswith(HISTORY):
            continue
        text = read(path)
        now = follow(path, text)
        if now != text:
            write(path, now)
            changed += 1
    print(f"move_laws: {sum(len(it) for it in MOVES.values())} modules in proofs/, {changed} files changed now")


if __name__ == "__main__":
    os.chdir(subprocess.run(["git", "rev-parse", "--show-toplevel"], check=True, capture_output=True, text=True).stdout.strip())
    main()
