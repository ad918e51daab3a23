#!/usr/bin/env bash
# Says which must-fail edits name a line that does not stand exactly once in its file.
cd "$(dirname "$0")/.."
python3 - <<'PY'
import glob, os
bad = 0
for edit in sorted(glob.glob("crates/*/must-fail/*.edit")):
    crate = edit.split("/must-fail/")[0]
    target = None
    for line in open(edit, encoding="utf-8"):
        if line.startswith("file: "):
            target = open(os.path.join(crate, line[6:].strip()), encoding="utf-8").read()
        if line.startswith("old: "):
            n = target.count(line[5:].strip("\n").strip())
            if n != 1:
                bad += 1
                print(f"{edit}: stands {n} times")
print(f"{bad} to mend")
PY
