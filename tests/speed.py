#!/usr/bin/env python3
# Says how long the command circus takes for what is large: seconds of processor time, the most memory that it held, and, where
# valgrind is on the PATH and the first word is instructions, how many million instructions it ran.
#
#     tests/speed.py [instructions] [NAME..]
#
# The names are those of the lines; without any all are run. CIRCUS may name the program; else it is crates/circus/out/circus,
# which ./build makes. It ends with status 1 where a run didn't end with the status that it should.
import os
import re
import shutil
import subprocess
import sys
import tempfile
import time

top = os.path.dirname(os.path.dirname(os.path.abspath(__file__)))
circus = os.environ.get("CIRCUS", f"{top}/crates/circus/out/circus")

COUNTER = """CIRCUS 1;
Count: PROGRAM 1 VERSION 1 =
BEGIN
  Add: PROCEDURE [n: CARDINAL] RETURNS [sum: LONG CARDINAL] = 1;
END.
MODULE Counter IMPLEMENTS Count;
BEGIN
  VAR total: LONG CARDINAL;
  PROCEDURE Add {locals}BEGIN
    {body}total := total + n;
    RETURN [total];
  END;
END.
ROOT Main IMPORTS Counter;
BEGIN
  VAR got: LONG CARDINAL;
  MAIN VAR i: LONG CARDINAL; BEGIN
    WHILE i < {times} DO CALL Counter.Add [5] INTO [got]; i := i + 1; END;
    RETURN [];
  END;
END.
RINGMASTER ring PORT 9000;
TROUPE Counter CALLS FIRST REPLIES FIRST MEMBERS s1 PORT 9001;
TROUPE Main CALLS FIRST REPLIES FIRST MEMBERS m1 PORT 9002;
"""

LABELS = """CIRCUS 1;
Count: PROGRAM 1 VERSION 1 =
BEGIN
  Kind: TYPE = {{{labels}}};
  Add: PROCEDURE [n: CARDINAL] RETURNS [sum: LONG CARDINAL] = 1;
END.
MODULE Counter IMPLEMENTS Count;
BEGIN
  PROCEDURE Add VAR w: Kind; BEGIN
    {uses}
    RETURN [1];
  END;
END.
ROOT Main IMPORTS Counter;
BEGIN
  MAIN BEGIN
    RETURN [];
  END;
END.
RINGMASTER ring PORT 9000;
TROUPE Counter CALLS FIRST REPLIES FIRST MEMBERS s1 PORT 9001;
TROUPE Main CALLS FIRST REPLIES FIRST MEMBERS m1 PORT 9002;
"""


def calls(times, body="", locals=""):
    return COUNTER.format(times=times, body=body, locals=locals)


def bank(payments):
    with open(f"{top}/examples/bank.circus") as file:
        return file.read().replace("WHILE i < 20 DO", f"WHILE i < {payments} DO")


def deliveries(number):
    return "".join(f"deliver {n}\n" for n in range(number))


def labels(number, uses):
    names = ", ".join(f"a{n}({n})" for n in range(number))
    return LABELS.format(labels=names, uses=f"w := Kind#a{number - 1};\n" * uses)


def program(name):
    with open(f"{top}/tests/programs/{name}.circus") as file:
        return file.read()


# name: the words, the files that they name, and the statuses that the run may end with
RUNS = {
    "replay of 50,000 deliveries": ("replay p s", {"p": bank(3000), "s": deliveries(50000)}, {0}),
    "replay of 100,000 deliveries": ("replay p s", {"p": bank(3000), "s": deliveries(100000)}, {0}),
    "replay of 200,000 deliveries": ("replay p s", {"p": bank(3000), "s": deliveries(200000)}, {0}),
    "settle with 1,000,000 deliveries": ("settle p 1000000", {"p": bank(20000)}, {0, 10}),
    "sample of 200,000 steps": ("sample p 1 200000", {"p": bank(3000)}, {0}),
    "loops of 38,000,000 steps": (
        "run p",
        {"p": calls(38, "WHILE i < 333000 DO i := i + 1; END; ", "VAR i: LONG CARDINAL; ")},
        {0},
    ),
    "65,535 asks": ("run p", {"p": calls(65535)}, {0}),
    "a value of 1,048,576 bytes": ("settle p 2000", {"p": program("block_8")}, {0, 10}),
    "100,000 copies of 15,000 items": ("run p", {"p": program("copies")}, {0}),
    "2,000 calls with 32,768 items": ("run p", {"p": program("locals")}, {0}),
    "4,000 labels, 4,000 uses": ("stubs p", {"p": labels(4000, 4000)}, {0}),
    "16,000 labels, 40,000 uses": ("stubs p", {"p": labels(16000, 40000)}, {0}),
}


def held(process):
    # what is told of a child when it has ended counts what this script held when it began
    try:
        with open(f"/proc/{process}/status") as status:
            return int(re.search(r"VmHWM:\s+(\d+)", status.read())[1])
    except (OSError, TypeError):
        return 0


def run(words, statuses):
    with open("out", "wb") as out:
        ran = subprocess.Popen([circus, *words.split()], stdout=out, stdin=subprocess.DEVNULL)
        most, ended = 0, 0
        while not ended:
            most = max(most, held(ran.pid))
            time.sleep(0.002)
            ended, status, used = os.wait4(ran.pid, os.WNOHANG)
        ran.returncode = os.waitstatus_to_exitcode(status)
    return ran.returncode in statuses, used.ru_utime + used.ru_stime, most / 1024


def instructions(words):
    subprocess.run(
        ["valgrind", "--log-file=log", "--tool=callgrind", "--callgrind-out-file=/dev/null", circus, *words.split()],
        stdout=subprocess.DEVNULL,
        stdin=subprocess.DEVNULL,
    )
    with open("log") as log:
        found = re.search(r"Collected : (\d+)", log.read())
    return int(found[1]) / 1_000_000 if found else None


names = sys.argv[1:]
counts = names[:1] == ["instructions"] and shutil.which("valgrind") is not None
names = [name for name in names if name != "instructions"]
failed = 0
for name, (words, files, statuses) in RUNS.items():
    if names and name not in names:
        continue
    with tempfile.TemporaryDirectory() as folder:
        os.chdir(folder)
        for file, text in files.items():
            with open(file, "w") as to:
                to.write(text)
        good, seconds, most = run(words, statuses)
        line = f"{name}: {seconds:.2f} s, {most:.0f} MB"
        if counts:
            line += f", {instructions(words):.0f} million instructions"
        if not good:
            failed = 1
            line += ", and a status that it should not end with"
        print(line, flush=True)
        os.chdir("/")
sys.exit(failed)
