"""What the program answers to many calls: by the program that $STP_PROGRAM names, by the one that `./stp build` proved,
or else by one run of `rt try` without proofs."""
import os
import pathlib
import re
import subprocess
import tempfile

CRATE = pathlib.Path(__file__).resolve().parent.parent / "crates" / "stp_program"


def answers(folder, calls):
    """The text and the status of each call, a name with its words, on files below a folder."""
    program = os.environ.get("STP_PROGRAM")
    if not program and (CRATE / "out" / "stp_program.sources").exists():
        program = str(CRATE / "out" / "stp_program")
    if not program:
        return unproved(folder, calls)
    found = {}
    for name, words in calls.items():
        ran = subprocess.run([program, *words], cwd=folder, stdout=subprocess.PIPE, stdin=subprocess.DEVNULL)
        found[name] = (ran.stdout.decode(), ran.returncode)
    return found


def unproved(folder, calls):
    with tempfile.TemporaryDirectory() as cases:
        data = []
        for name, words in calls.items():
            pathlib.Path(cases, name).touch()
            pathlib.Path(cases, f"{name}.args").write_text("\n".join(words) + "\n")
            files = [it for it in words if pathlib.Path(folder, it).is_file()]
            data += [it for file in files for it in ("--data", f"{file}={pathlib.Path(folder, file).resolve()}")]
        command = ["rt", "try", "--seconds", "600", "--cases", cases, *data]
        how = {"cwd": CRATE, "stdin": subprocess.DEVNULL, "stdout": subprocess.PIPE, "stderr": subprocess.STDOUT}
        said = subprocess.run(command, text=True, **how).stdout
    texts = dict(re.findall(r"^== (\S+)\n(.*?)(?=^== |^case=|^cases=|\Z)", said, re.M | re.S))
    statuses = dict(re.findall(r"^case=(\S+) run=ended status=(\d+)", said, re.M))
    return {name: (texts.get(name, ""), int(statuses.get(name, -1))) for name in calls}
