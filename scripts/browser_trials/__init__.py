"""The pages of `office serve` in a real browser, Debian's Chromium without a window, beside the plain slow model.

    chromium.py   the browser: goes to pages, clicks, types, measures
    served.py     stores, each served by the program, and the model's office beside it
    looks.py      how a page looks: where it lies, its colours, its names for people who hear it
    walk.py       the walk from `/` over each kind of link, and what is typed into the form
    pictures.py   the picture of the yard
    parts.py      all of these: scripts/pages
"""
