"""What a program took, for `journal` and `wire`."""
import os
import re
import shutil
import subprocess
import tempfile
import time


def greatest_memory(pid):
    """The greatest memory of a process so far in KiB, as the system counts it from the program's start; 0 if it has ended.

    What `wait4` tells counts this script's own memory in, which the process had before it became the program."""
    with open(f"/proc/{pid}/status") as status:
        found = re.search(r"VmHWM:\s+(\d+)", status.read())
    return int(found[1]) if found else 0


def run(words, source, target):
    """Seconds by the clock and of the processor, and the greatest memory in KiB."""
    memory = 0
    with open(source, "rb") as given, open(target, "wb") as out:
        start = time.perf_counter()
        started = subprocess.Popen(words, stdin=given, stdout=out)
        while not os.waitid(os.P_PID, started.pid, os.WEXITED | os.WNOHANG | os.WNOWAIT):
            memory = max(memory, greatest_memory(started.pid))
            time.sleep(0.002)
        clock = time.perf_counter() - start
        _, status, used = os.wait4(started.pid, 0)
    started.returncode = os.waitstatus_to_exitcode(status)
    if started.returncode != 0:
        raise SystemExit(f"{words[0]} ended with {started.returncode}")
    return clock, used.ru_utime + used.ru_stime, memory


def instructions(words, source):
    """How many instructions a program takes, by `valgrind`."""
    with tempfile.TemporaryDirectory() as folder, open(source, "rb") as given:
        said = subprocess.run(["valgrind", "--tool=callgrind", f"--callgrind-out-file={folder}/out", *words], stdin=given,
                              stdout=subprocess.DEVNULL, stderr=subprocess.PIPE, check=True).stderr.decode()
    return int(re.search(r"Collected : (\d+)", said).group(1))


def peer(top, name):
    """Compiles a plain program for x86-64-v2, as ours are, and returns where it is."""
    if not shutil.which("rustc"):
        raise SystemExit(f"rustc isn't on the PATH, which compiles bench/src/{name}.rs")
    os.makedirs(f"{top}/bench/out", exist_ok=True)
    made = f"{top}/bench/out/{name}"
    subprocess.run(["rustc", "--edition", "2021", "-O", "-C", "target-cpu=x86-64-v2", "-o", made, f"{top}/bench/src/{name}.rs"], check=True)
    return made
