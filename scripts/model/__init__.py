"""A plain slow model of the office, to be read against docs/PROFILE.md and the pages of crates, and run beside the program.

It is written from the rules and not from the code: no spans, no columns, no next number, no texts that wait. Each
file has one subject, in the order in which they stand on one another:

    moments.py     moments of the calendar
    syntax.py      service characters, segments, the fifteen faults of an interchange
    cuts.py        interchanges out of a stream
    names.py       container numbers, size-types, slots
    messages.py    three messages, their faults, and the order of each line
    contrl.py      the text of CONTRL
    yard.py        what stands where, what fits, the first slot that fits
    rules.py       what is done otherwise from version to version
    setup.py       set-ups, and the two files that say one
    terminal.py    what an order does: yard, visits, lists
    naming.py      which lists an interchange names
    deliveries.py  the words of the headline: first text, run, order
    events.py      the accounts so far, and which texts were admitted as they came
    register.py    which archives hold what was put away of a store
    office.py      taking a text, the answers to a delivery and to an addition
    stream.py      the lines and the exit status that answer a stream
    keys.py        the keys of reports
    words.py       what lines of reports have in common
    reports.py     what can be asked of the office besides deliveries
    lookups.py     those reports that look up one thing, or count
    rows.py        what the tables hold, and what a store's file holds
    closing.py     which files are an archive of a store, and what goes from it
    meanings.py    what the names in a reply mean, read from docs/PROFILE.md
    picture.py     the picture of the yard
    pages.py       the pages of reports
    http.py        one request of HTTP and its response
    commands.py    what a command prints, over files
    explained.py   what `office explain` prints of a file
    opened.py      whether the rows of a store are those of an office

and what holds the program to them:

    days.py        random streams, and how often what comes in them
    counts.py      how often that comes in them which no answer tells: weights, room, moves home
    setups.py      random files of set-ups, right and wrong ones
    vessels.py     interchanges that get vessels' lists done, and that name them again
    requests.py    random keys, and random requests of HTTP
    asking.py      containers, requests and connections
    files.py       files of the repository, and files of texts
    page.py        the page of worked rows, read
    stores.py      the program over stores in files, beside the model
    old_stores.py  stores of any version, written by SQLite's own library
    migrated.py    old stores that the program brings to the newest version
    damaged.py     stores that another hand has changed, in damaged.txt
    crowded.py     a crowded yard
    full.py        full blocks, and a long list that is put away
    replaced.py    full lists, replaced
    closed_alone.py    closings by the model alone
    closed.py      stores that the program closes, among random events, and archives that can't be asked
    refused_closings.py  what a closing is refused for, and registers that are other ones
    worked_stores.py  the worked rows that want a store
    worked.py      the worked rows of docs/WORKED_ROWS.md, and the day of examples/day
    cases.py       streams and deliveries whose answers are written out, in cases.txt
    samples.py     docs/SAMPLES.md, made of some of them
    told.py        what a person is told of deliveries: the tally, the log
    shown.py       the interchanges, answers and reports that other pages show
    directory.py   examples and samples, held to the order of segments of D.95B
    beside.py      the program beside all this: scripts/beside

A text is a str with one character for each byte (Latin-1), so that bytes from 0x80 stand for themselves.
"Own" in a docstring marks what this office decides for itself, as in docs/PROFILE.md.
"""
