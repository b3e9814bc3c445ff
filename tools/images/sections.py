"""The sections of the files of the program trial_images: one for each kind of images, by the kind's name."""
import os

FOLDER = os.path.join(os.path.dirname(os.path.abspath(__file__)), "../../crates/trial_images")
# the line that stands in front of a section, but for its name
HEADS = {"stdin": "section ", "stdout": "== "}


def read(file):
    """The lines of each section of a file, in the order of the file."""
    sections = {}
    with open(os.path.join(FOLDER, file)) as given:
        for line in given.read().splitlines():
            if line.startswith(HEADS[file]):
                lines = sections[line[len(HEADS[file]):]] = []
            else:
                lines.append(line)
    return sections


def write(kind, file, lines):
    """Puts these lines in the place of those of a section, and leaves the others as they are."""
    sections = read(file)
    sections[kind] = lines
    with open(os.path.join(FOLDER, file), "w") as out:
        for name, rows in sections.items():
            out.writelines(f"{row}\n" for row in [HEADS[file] + name, *rows])
