"""Files of the repository, and files of texts: one character for each byte (Latin-1)."""
import os

TOP = os.path.dirname(os.path.dirname(os.path.dirname(os.path.abspath(__file__))))
PROGRAM = os.path.realpath(os.environ.get('OFFICE') or os.path.join(TOP, 'crates/office/out/office'))
SETUP = [os.path.join(TOP, 'examples/setup', name) for name in ('partners.csv', 'blocks.csv')]


def contents(path):
    """A file's bytes."""
    with open(path, encoding='latin-1', newline='') as file:
        return file.read()


def written(folder, name, text):
    """The path of a file in a folder, of those bytes."""
    path = os.path.join(folder, name)
    with open(path, 'w', encoding='latin-1', newline='') as file:
        file.write(text)
    return path


def flip(path, chance):
    """Turns one bit of a file over."""
    place = chance.randrange(os.path.getsize(path))
    with open(path, 'r+b') as file:
        file.seek(place)
        byte = file.read(1)[0]
        file.seek(place)
        file.write(bytes([byte ^ 1 << chance.randrange(8)]))


def texts_of_day():
    """The texts of examples/day, by their names, in their turn."""
    folder = os.path.join(TOP, 'examples/day')
    return {name: contents(os.path.join(folder, name)) for name in sorted(os.listdir(folder)) if name.endswith('.edi')}
