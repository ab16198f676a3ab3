"""Running a replay program on a recording; shared by the scripts of recordings."""
import shlex
import subprocess

def replay(program, recording, usual=(0, 1)):
    """The lines that a program (a command with words) prints for a recording; what is wrong beside them is a line too.  By the status 1 a program may tell
    that something was refused."""
    done = subprocess.run(shlex.split(program), input=recording, stdout=subprocess.PIPE, check=False)
    *lines, rest = done.stdout.decode("utf-8", "backslashreplace").split("\n")
    return lines + [f"{rest} (no newline)"] * bool(rest) + [f"(exit status {done.returncode})"] * (done.returncode not in usual)
