"""All parts: scripts/pages."""
import os
import shutil
import tempfile

from hostile.rounds import room

from . import pictures
from .chromium import Chromium, browser_here
from .served import Served, yards_of_pages, yards_of_pictures
from .walk import LISTED, Walk

# views of pages of the day: where, and how large
VIEWS = {
    'page_start.png': ('/', 1000, 760), 'page_container.png': ('/pages/containers/ABCU6488207', 1000, 660),
    'page_list.png': ('/pages/lists/9123456/V12/load', 1000, 460), 'page_reply_phone.png': ('/pages/replies/HAULB/3', 360, 820)}
MOST_BYTES = 400000         # of all of docs/pictures
# which of the day's pages ask again by themselves, and what is delivered meanwhile
AGAIN = [('/pages/lists/9123456/V12/load', LISTED % (3, 'ABCU0000017', 3)), ('/pages/work/9123456/V12/load', LISTED % (4, 'ABCU0000022', 4))]


def walked(chromium, served, yard, folder):
    """What is wrong with the pages of a store. Gives that, and the views that were kept."""
    walk, saved = Walk(chromium, served), {}
    walk.walk()
    walk.typed()
    walk.focused()
    if yard.name == 'day':
        for name, (path, width, height) in VIEWS.items():
            saved[name] = os.path.join(folder, name)
            chromium.resize(width, height)
            walk.arrived(chromium.open(served.url(path)))
            chromium.save(saved[name])
        for path, text in AGAIN:
            walk.asks_again(path, text)
    walk.elsewhere()
    print('%s: %d pages, %d of them other ones; %d kinds of links; %d links, of which %d lead to nothing' % (
        yard.name, len(walk.opened), len(walk.pages), len(walk.clicked), sum(walk.links.values()), walk.lost), flush=True)
    return walk.faults, saved


def drawn(chromium, served, yard, folder):
    """What is wrong with the picture of a yard. Gives that, and the views that were kept."""
    found, saved = [], {}
    for width in pictures.WIDTHS:
        path = os.path.join(folder, width + '.png')
        found += pictures.look(chromium, served, width, path)
        saved.update({pictures.VIEWS[yard.name, width]: path} if (yard.name, width) in pictures.VIEWS else {})
    if chromium.asked != len(pictures.WIDTHS) * [served.url('/picture')] or chromium.said:
        found.append('asked for %s, and said %s' % (chromium.asked, chromium.said))
    return found, saved


def tried(program, browser, folder, yard, trial):
    """A trial over a store of its own, with a browser of its own."""
    folder = os.path.join(folder, '%s-%s' % (trial.__name__, yard.name))
    os.mkdir(folder)
    with Served(program, folder, yard) as served, Chromium(browser, folder) as chromium:
        found, saved = trial(chromium, served, yard, folder)
        return ['%s: %s' % (yard.name, fault) for fault in served.faults + found], saved


def keep(top, saved):
    """Puts the views into docs/pictures, if they are not too large. Gives what is wrong with them."""
    total = sum(os.path.getsize(path) for path in saved.values())
    if total > MOST_BYTES:
        return ['the views have %d bytes' % total]
    for name, path in saved.items():
        shutil.copy(path, os.path.join(top, 'docs', 'pictures', name))
    return []


def check(top, program):
    """0 where each page is the model's, shows what it says, and asks for nothing else. Without a browser 0 too."""
    browser, found, saved = browser_here(), [], {}
    if browser is None:
        print('pages: skipped, for want of Chromium')
        return 0
    with tempfile.TemporaryDirectory(prefix='pages-', dir=room(), ignore_cleanup_errors=True) as folder:
        for trial, yards in ((walked, yards_of_pages), (drawn, yards_of_pictures)):
            for yard in yards(top):
                wrong, views = tried(program, browser, folder, yard, trial)
                found += wrong
                saved.update(views)
        found += keep(top, saved)
    for fault in found:
        print('FAILED: ' + fault)
    print('%d faults' % len(found))
    return 1 if found else 0
