"""Where the files of the repository lie."""

import os

TOP = os.path.dirname(os.path.dirname(os.path.dirname(os.path.abspath(__file__))))
EXAMPLES = os.path.join(TOP, "examples")
CRATE = os.path.join(TOP, "crates/bt878_examples")  # whose cases the merge gate tries


def read(name, folder=EXAMPLES):
    with open(os.path.join(folder, name), "rb") as file:
        return file.read()


def write(folder, name, data):
    os.makedirs(os.path.dirname(os.path.join(folder, name)), exist_ok=True)
    with open(os.path.join(folder, name), "wb") as file:
        file.write(data)
