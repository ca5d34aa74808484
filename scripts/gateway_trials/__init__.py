"""The gateway of examples/gateway, tried with the real parts: nginx, HAProxy, OpenSSL and curl before the program.

    installed.py     the parts in a folder and on ports of their own, with an office in a network of its own
    asking.py        clients with certificates: curl, and sockets for what curl doesn't send
    judged.py        what an answer has to be and which rows have to be there, by the slow model of scripts/model
    partners.py      each case of a partner: senders, paths, methods, bodies, clients that are slow
    certificates.py  none, revoked ones, other authorities, a list that is over its date
    people.py        each role and each path; who may add accounts
    load.py          many clients at once, in any order; the office stopped, started anew and killed meanwhile
    connections.py   ten thousand connections, one after the other
    copies.py        copies while it serves, and the drill that restores one
    health.py        a store that failed, an office that hangs, one that is away
    units.py         the units by systemd-analyze, the rotation of logs
    by_page.py       the ten steps as the page says, on a machine that is thrown away, with Debian's users, units and log rotation
    standby.py       a standby set up by its page on a second one, until it takes the first's place
    browser.py       Chromium with a person's certificate, and a form of another site's page
    machine.py       machines that are thrown away
    pages.py         what a page says to do
    parts.py         all of these: scripts/gateway

Nothing is reached but loopback and sockets in a folder of its own, and no process is stopped but those that were started
here.
"""
