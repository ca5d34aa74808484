"""Offices that are made of another one's texts, in the order in which these came, beside the plain slow model of scripts/model.

    offices.py   an office that is rebuilt or that follows, held to the first: rows, texts in their order, all reports
    rebuild.py   random lists rebuilt, also after what comes later
    follow.py    turns of examples/standby, with kills of either office, and what stops a follower
    serving.py   the same by office-first, while the first serves
    closed.py    stores whose history is put away, rebuilt and followed
    drill.py     a copy put back: which containers stand elsewhere
    old.py       stores of versions 1, 2 and 3
    odd.py       FROM, accounts that are missing, separators, a mebibyte, sizes of pages, gaps between rowids
    parts.py     all of these, with what was counted: scripts/journal
"""
