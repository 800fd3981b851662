"""One run of a program: its seconds of processor time, the most memory that it held, and what it wrote; or its instructions."""
import os
import re
import subprocess
import sys
import tempfile


def measured(words, given=b""):
    """Processor seconds, kilobytes at most, and the output of one run, whose output goes to a file. The programs have one
    thread and wait for nobody, so on a machine with nothing else to do these are the seconds that a clock shows."""
    with tempfile.TemporaryFile() as source, tempfile.TemporaryFile() as output:
        source.write(given)
        source.seek(0)
        child = subprocess.Popen(words, stdin=source, stdout=output)
        _, status, used = os.wait4(child.pid, 0)
        seconds = used.ru_utime + used.ru_stime
        if status != 0:
            sys.exit(f"{words} ended with {status}")
        output.seek(0)
        return seconds, used.ru_maxrss, output.read()


def best(words, given=b"", runs=5):
    """The quickest of so many runs."""
    return min((measured(words, given) for _ in range(runs)), key=lambda run: run[0])


def counted(words, given=b""):
    """Instructions of one run, by valgrind's callgrind, and its output. They do not depend on what else the machine does."""
    with tempfile.TemporaryDirectory() as folder:
        callgrind = ["valgrind", "--tool=callgrind", f"--callgrind-out-file={folder}/out"]
        run = subprocess.run(callgrind + words, input=given, capture_output=True, check=True)
    return int(re.search(rb"Collected : (\d+)", run.stderr).group(1)), run.stdout
