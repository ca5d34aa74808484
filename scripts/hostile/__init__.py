"""The program under what happens to processes, files and memory, beside the plain slow model of scripts/model.

    books.py            a store, what was delivered to it, and the rows that it has by the model
    working.py          a process of the program at work: `deliver` and `serve`
    kills.py            SIGKILL at a random moment, many times a store
    calls.py            SIGKILL at each call by which `deliver` and `init` write, and each such call refused (with strace, if
                        it is there)
    calls_of_others.py  the same for `report`, `serve` and `init`, and for calls of whatever kind
    commands.py         the same as calls.py for `account` and `migrate`; and their allocations refused
    closings.py         the same for `close`, and after losses of power
    printing.py         the same for `texts` and `explain`
    power.py            what a loss of power may leave, made up from the calls (with strace)
    full.py             no room: a file system that is full, a limit on the size of files
    places.py           read-only files and folders, copies, SQLite's own library, readers that go away
    pairs.py            two processes on one store
    flips.py            single bits that turn over
    parts.py            all of these, with what was counted: scripts/kill9
    memory.py           each allocation of `deliver` refused in turn, by refuse.c: scripts/memory
    memory_of_others.py the same for the other commands
    served.py           `serve` over a new store with the model's office beside it
    clients_*.py        curl and sockets: each route and form; many at once; slow ones, and ones that go away
    clients.py          all of these: scripts/clients
    mutations.py        texts with bytes, segments, values and lines changed
    rounds.py           a round of mutated inputs from its seed: set-up files, streams, keys, requests, and the rows after them
    sampled.py          the program with the peak of its memory
    bounded.py          those peaks on inputs of which nothing more is kept
    fuzz.py             round after round: scripts/fuzz

No process is stopped but those that were started here.
"""
