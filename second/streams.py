"""Running a program on a stream of cases and telling its answers apart; shared by the other scripts."""
import shlex
import subprocess

LISTING = "depth tag kind offset length"
# How many lines an answer to E has, the lines alone don't tell: a refusal in the first may be the object's or an edit's.  So a mark follows each E, a case of
# S, whose answer is no line of E's.
MARK = b"S" + 2 * bytes.fromhex("000002 0300")
MARKED = "same"


def run(program, stream):
    """The lines that a program (a command with words) prints for a stream, and its exit status."""
    done = subprocess.run(shlex.split(program), input=stream, stdout=subprocess.PIPE, check=False)
    return done.stdout.decode("utf-8", "backslashreplace").split("\n"), done.returncode


def split_answers(lines, letters=""):
    """Groups printed lines into answers; `letters` are those of the cases, where an E is among them.

    A listing goes on to its "records" line, an E to its mark; "touched" belongs to the answer above it.
    What follows the last newline is an answer of its own where it isn't empty: the program was cut short.
    """
    answers, last = [], None
    for line in lines[:-1]:
        if last is not None or (line == "touched" and answers):
            answers[-1].append(line)
        else:
            last = MARKED if letters[len(answers):len(answers) + 1] == "E" else "records " if line == LISTING else None
            answers.append([line])
        if last is not None and line.startswith(last):
            last = None
    if lines[-1]:
        answers.append([lines[-1], "(no newline)"])
    return answers


def ask(program, cases):
    """A program's answers to cases, each a list of lines, and its exit status."""
    letters = "".join(chr(case[0]) for case in cases)
    lines, status = run(program, b"".join(case + MARK if case[:1] == b"E" else case for case in cases))
    answers = split_answers(lines, letters)
    for letter, answer in zip(letters, answers):
        if letter == "E" and MARKED in answer:
            answer.remove(MARKED)
    return answers, status
