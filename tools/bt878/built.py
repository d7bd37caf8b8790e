"""The program bt878, run in a scratch folder."""

import os
import subprocess


class Built:
    """A built program, and the folder that it works in."""

    def __init__(self, binary, folder):
        self.binary, self.folder = os.path.abspath(binary), folder

    def run(self, *words):
        """The status, and what is printed."""
        done = subprocess.run([self.binary, *words], cwd=self.folder, capture_output=True, timeout=600)
        return done.returncode, done.stdout.decode()

    def says(self, *words):
        return self.run(*words)[1]

    def write(self, name, data):
        with open(os.path.join(self.folder, name), "wb") as file:
            file.write(data)

    def read(self, name):
        with open(os.path.join(self.folder, name), "rb") as file:
            return file.read()
