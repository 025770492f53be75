"""A build cache for one client, whose key TLS has proved. Usage: cache.py ACL FOLDER KEY SEQUENCE; then lines `read PATH` and `write PATH TEXT`."""
import os
import re
import sys
from datetime import datetime, timezone
from pathlib import Path

import spki
import spki_verify

access_list, folder, key, sequence = map(Path, sys.argv[1:]) if len(sys.argv) == 5 else sys.exit(__doc__)
guard, client, decided, grant = spki.Guard(access_list.read_bytes()), spki.ProvenKey.assume(key.read_bytes()), None, None
for line in sys.stdin.buffer:
    action, path, text = (line.rstrip(b"\n").split(b" ", 2) + [b"", b""])[:3]
    request, answer, now = (action, path), b"denied", datetime.now(timezone.utc)
    try:
        if request != decided or not grant or not grant.holds_at(now):  # (while its grant holds, the same request is not decided again)
            question = spki.Question(sequence.read_bytes(), client, words=[b"cache", *request], moment=now)
            decided, grant = request, guard.decide(question, spki_verify.verify)
        file, is_normal = folder / os.fsdecode(path[1:]), re.fullmatch(rb"(/(?!\.\.?(/|$))[^/]+)+", path)  # (no part is empty, `.` or `..`)
        if grant and is_normal and action == b"write":
            answer = b"written %d" % file.write_bytes(text)
        elif grant and is_normal and action == b"read":
            answer = file.read_bytes() if file.is_file() else b"nothing is there"
    except (OSError, ValueError, spki.Refused):
        answer = b"failed"
    sys.stdout.buffer.write(answer + b"\n")
