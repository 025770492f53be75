"""What the gate and the deep run run, and for how long they may."""

# How many generated texts and questions the gate and the deep run compare with the model.
CASES, DEEP_CASES = 20_000, 1_000_000

# The parts of the gate, one after the other: how many minutes each may take on two slow cores, and its words.
GATE = [
    (10, ["tests/run", "--pages"]),
    (120, ["rt", "ci"]),
    (45, ["tests/run", "--gate", "--cases", str(CASES)])]

# How many minutes each part of the deep run may take.
DEEP_MINUTES = 300

# What the deep run runs behind the wrong bodies: the program that it needs beside Python (`python3`: none), and its words.
LONG = [
    ("python3", ["tests/run", "--long"]),
    ("sexp-conv", ["examples/peers.py"]),
    ("cc", ["tests/differential.py", "--cases", str(DEEP_CASES)]),
    ("python3", ["bench/check.py"]),
    ("openssl", ["bench/chains.py"]),
    ("valgrind", ["bench/explain.py"]),
    ("valgrind", ["bench/intersect.py"]),
    ("sexp-conv", ["bench/convert.py"]),
    ("cc", ["bench/service.py"]),
    ("valgrind", ["bench/linear.py"]),
    ("cc", ["bench/slowest.py"]),
    ("wrk", ["bench/authd.py"])]
