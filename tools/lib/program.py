"""Calls of the built program."""
import os
import subprocess
import sys

TOP = os.path.dirname(os.path.dirname(os.path.dirname(os.path.realpath(__file__))))
PROGRAM = os.environ.get("RSSD") or os.path.join(TOP, "build", "rssd")


class Failed(Exception):
    """The program ended with another status than 0."""

    def __init__(self, words, status, said, name="rssd"):
        super().__init__(words, status, said, name)
        self.words, self.status, self.said, self.name = words, status, said, name

    def __str__(self):
        said = self.said.decode(errors="replace")[:60].strip()
        return f"{self.name} {' '.join(self.words)}: status {self.status} {said}".rstrip()


def call(words, script=b"", folder=None):
    """The status and the output of one call, in a folder for its images."""
    try:
        done = subprocess.run([PROGRAM, *words], input=script, stdout=subprocess.PIPE, stderr=subprocess.DEVNULL, cwd=folder)
    except OSError as error:
        sys.exit(f"{PROGRAM}: {error.strerror}; `./rssd` proves and builds the program, and RSSD may name another one")
    return done.returncode, done.stdout


def play(words, script=b"", folder=None):
    """The reply to each line of a script. Raises Failed for another status than 0."""
    status, said = call(words, script, folder)
    if status:
        raise Failed(words, status, said)
    return said.decode().split("\n")[:-1]


class Kept:
    """A die that is kept in a folder from call to call."""

    def __init__(self, folder, head_words):
        self.folder, self.image = folder, os.path.join(folder, "die.img")
        play(["format", *head_words], folder=folder)
        self._take()

    def _take(self):
        os.replace(os.path.join(self.folder, "die.new"), self.image)

    def run(self, script):
        replies = play(["run"], script, self.folder)
        self._take()
        return replies
