"""Counts cases for the scripts of this folder that are written in Python."""
import os
import subprocess
import sys
import tempfile

HERE = os.path.dirname(os.path.abspath(__file__))
TOP = os.path.dirname(HERE)


class Cases:
    """The cases of one script: each passes, fails or is skipped."""

    def __init__(self, name):
        self.name = name
        self.passed = self.failed = self.skipped = 0

    def judge(self, case, good, shown=""):
        """Counts a case, and shows what was there instead where it fails."""
        if good:
            self.passed += 1
        else:
            self.failed += 1
            print(f"{self.name}: {case}: {shown}".rstrip(": "))

    def same(self, case, got, wanted):
        """Counts a case that compares two values."""
        self.judge(case, got == wanted, f"{got!r}, and not {wanted!r}")

    def skip(self, case, why, count=1):
        """Counts cases that can't be tried here."""
        self.skipped += count
        print(f"{self.name}: {case}: skipped, {why}")

    def end(self):
        """Prints the last line; the status of the script."""
        print(f"{self.passed} passed, {self.failed} failed, {self.skipped} skipped")
        return 0 if self.failed == 0 and self.passed + self.skipped > 0 else 1


def program_of(words):
    """The program that a script is run on."""
    return os.path.abspath(words[1] if len(words) > 1 else os.path.join(TOP, "crates/wave/out/wave"))


def has_program(path):
    """Whether it is there."""
    return os.path.isfile(path) and os.access(path, os.X_OK)


def call(words, stdin=b"", folder=None, **variables):
    """Status, standard output and standard error of a command, the latter two as texts."""
    environment = {name: value for name, value in os.environ.items() if name not in ("WAVE_HINT", "WAVE_PROGRAM", "NO_COLOR")}
    environment.update(variables)
    done = subprocess.run(words, input=stdin, capture_output=True, cwd=folder, env=environment, check=False)
    return done.returncode, done.stdout.decode(errors="replace"), done.stderr.decode(errors="replace")


def written(folder, name, text, encoding="utf-8"):
    """A file with this text or these bytes."""
    path = os.path.join(folder, name)
    with open(path, "wb") as file:
        file.write(text if isinstance(text, bytes) else text.encode(encoding))
    return path


def scratch():
    """A folder that is removed at the end."""
    return tempfile.TemporaryDirectory(prefix="wave-tests.")


if __name__ == "__main__":
    sys.exit("harness.py has no cases")
