"""Stores of the bench: made by the office, copied for the peer, and whether both do the same."""
import os
import shutil
import sqlite3

from model.old_stores import schema_of
from model.rows import OLD_COLUMNS, rows_in

import streams
from running import Stream, command

EXAMPLE = os.path.join(os.path.dirname(os.path.dirname(os.path.realpath(__file__))), 'examples', 'setup')
AGREED = [
    ('gates', 'large', streams.gates(1000)), ('lists', 'large', streams.lists(1050)),
    ('reverse', 'large', streams.reverse(300)), ('filling', 'large', streams.filling(2000)),
    ('mixed', 'small', streams.mixed(1000))]


class Stores:
    """A folder with stores; programs are the office's path and the peer's, or None without a peer."""

    def __init__(self, folder, office, peer):
        self.folder, self.office, self.peer = folder, office, peer
        partners = self.file('partners.csv', streams.PARTNERS)
        for name, blocks in (('whole', streams.WHOLE_YARD), ('large', streams.LARGE_YARD), ('small', streams.SMALL_YARD)):
            command(office, 'init', self.path(name), partners, self.file(name + '.csv', blocks))
        command(office, 'init', self.path('demo'), *(os.path.join(EXAMPLE, name) for name in ('partners.csv', 'blocks.csv')))

    def path(self, name):
        """Where a store of that name is."""
        return self.path_of(name + '.db')

    def path_of(self, name):
        """Where a file of that name is."""
        return os.path.join(self.folder, name)

    def file(self, name, text):
        """A file of that text."""
        path = self.path_of(name)
        with open(path, 'w', encoding='latin-1') as file:
            file.write(text)
        return path

    def remove(self, path):
        """A store's path, where nothing is left of it."""
        for end in ('', '-wal', '-shm'):
            if os.path.exists(path + end):
                os.remove(path + end)
        return path

    def copy(self, store, path):
        """A copy of a store, with its log."""
        self.remove(path)
        for end in ('', '-wal', '-shm'):
            if os.path.exists(store + end):
                shutil.copyfile(store + end, path + end)
        return path

    def new(self, name, yard='large', folder=None):
        """A store to which nothing was delivered."""
        return self.copy(self.path(yard), os.path.join(folder or self.folder, name + '.db'))

    def streams(self, name, yard='large', folder=None):
        """Office and peer, each ready for a stream over a new store of its own."""
        both = [Stream(self.office, 'deliver', self.new('office-' + name, yard, folder), '-')]
        if self.peer:
            both.append(Stream(self.peer, 'deliver', self.new('peer-' + name, yard, folder)))
        return both

    def both_on(self, made, folder):
        """Office and peer, each over a copy of a store."""
        both = [Stream(self.office, 'deliver', self.copy(made, os.path.join(folder, 'office-on.db')), '-')]
        if self.peer:
            both.append(Stream(self.peer, 'deliver', self.copy(made, os.path.join(folder, 'peer-on.db'))))
        return both

    def older(self, store, name):
        """A store of version 2 with the rows of one, written by SQLite's own library."""
        path = self.remove(self.path(name))
        old = sqlite3.connect(path)
        try:
            old.executescript(schema_of(2))
            old.execute('ATTACH ? AS newer', (self.copy(store, self.path('newer')),))
            for table, columns in OLD_COLUMNS.items():
                columns = ', '.join(columns.split())
                old.execute('INSERT INTO %s (%s) SELECT %s FROM newer.%s' % (table, columns, columns, table))
            old.execute("UPDATE setting SET value = '2' WHERE name = 'version'")
            old.commit()
        finally:
            old.close()
        return path

    def save(self, folder, name, mark):
        """Copies of the stores of a stream that has come to a mark."""
        for program in ('office', 'peer'):
            store = os.path.join(folder, '%s-%s.db' % (program, name))
            if os.path.exists(store):
                self.copy(store, self.path('%s-%s-%s' % (program, name, mark)))

    def continued(self, name):
        """Office and peer over copies of stores of that name."""
        both = [Stream(self.office, 'deliver', self.copy(self.path('office-' + name), self.path('office-more')), '-')]
        if self.peer:
            both.append(Stream(self.peer, 'deliver', self.copy(self.path('peer-' + name), self.path('peer-more'))))
        return both

    def agree(self, name, yard, texts):
        """Whether both give the same answers to a stream, the same yard after it, and the same rows."""
        both = self.streams(name, yard)
        answers = [each.feed(texts).answers for each in both]
        for each in both:
            each.close()
        paths = [self.path('office-' + name), self.path('peer-' + name)]
        yards = [command(self.office, 'report', paths[0], 'yard'), command(self.peer, 'report', paths[1])]
        rows = [rows_in(path) for path in paths]
        return answers[0] == answers[1] and yards[0] == yards[1] and rows[0] == rows[1]

    def disagreement(self):
        """The name of the first stream on which they differ, or None."""
        for name, yard, texts in AGREED:
            if not self.agree(name, yard, texts):
                return name
        return None
