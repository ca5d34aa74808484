"""Random lists of deliveries, rebuilt of the texts that are kept of them: the same office, also after what comes later."""
import tempfile

from hostile.books import naming

from .offices import are_same, hands_out, kinds_sent, new_book, rebuilt, send

BEFORE, BEHIND = 60, 24     # deliveries and additions at most


def rebuilt_once(program, seed, counted):
    """A list of a random length; the office that is made of its texts; further deliveries to both."""
    with tempfile.TemporaryDirectory(prefix='journal-') as folder, tempfile.TemporaryDirectory(prefix='journal-') as other:
        book = new_book(program, folder, seed)
        send(book, book.chance.randint(0, BEFORE))
        counted['texts handed out'] += hands_out(book)
        made = rebuilt(book, other)
        are_same(book, made)
        before = len(book.answered)
        send(book, book.chance.randint(1, BEHIND), [made])
        made.office = book.office
        hands_out(book)
        are_same(book, made)
        kinds_sent(book, counted)
        counted['deliveries and additions to both, behind'] += len(book.answered) - before
    counted['offices rebuilt'] += 1


def try_all(program, lists, seed, counted):
    """That many lists."""
    for each in range(seed, seed + lists):
        with naming('seed %d' % each):
            rebuilt_once(program, each, counted)
