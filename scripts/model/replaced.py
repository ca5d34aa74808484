"""The longest lists replaced: 999 lines by 999 others, by the same, by none of them, and by one that came early. The program
answers each as the model does, and leaves the same rows and the same list."""
import tempfile

from .asking import container
from .office import Office
from .setup import DEMO
from .setups import files_of
from .stores import Program

SETUP = DEMO
LINES = 999                 # of the longest message
CALL = '9123456', 'V12'


def full_list(number, first, function, is_bad=False):
    """A load list of 999 containers from that one on; if it is bad, none has the form of a number, so each line is refused."""
    groups = ["EQD+CN+%s'" % ('bad' if is_bad else container(serial)) for serial in range(first, first + LINES)]
    segments = ["UNH+1+COPRAR:D:95B:UN'", "BGM+45+%d+%d'" % (number, function), "TDT+20+%s+1+++++%s'" % CALL[::-1], *groups]
    return ''.join([
        "UNB+UNOA:3+LINEA+TERM1+240305:0910+%d'" % number, *segments, "UNT+%d+1'UNZ+1+%d'" % (len(segments) + 1, number)])


# what is delivered, in that order
STREAMS = {
    'by others': [full_list(1, 1, 9), full_list(2, 1000, 5)],
    'by the same': [full_list(1, 1, 9), full_list(2, 1, 5)],
    'by half of them and others': [full_list(1, 1, 9), full_list(2, 500, 5)],
    'before it is there': [full_list(2, 1000, 5), full_list(1, 1, 9)],
    'twice, and told again': [full_list(1, 1, 9), full_list(2, 1000, 5), full_list(3, 1, 5), full_list(2, 1000, 5)],
    'by refused lines alone': [full_list(1, 1, 9), full_list(2, 1, 5, is_bad=True)],
}


def try_all(beside):
    """Each stream over a store of its own, with its rows and the list after it."""
    for name, texts in STREAMS.items():
        name, office = 'a full list replaced ' + name, Office(SETUP, keeps_fold=True)
        with tempfile.TemporaryDirectory(prefix='beside-') as folder:
            program = Program(beside.path, folder)
            program.init(*files_of(SETUP))
            beside.deliver(name, program, office, '\n'.join(texts))
            beside.report(name, program, office, 'list', '/'.join((*CALL, 'load')))
            beside.rows(name, program, office)
