"""What a page says to do: its numbered steps, with the commands of each."""
import os
import re

from .installed import TOP

OPERATIONS, STANDBY = 'docs/OPERATIONS.md', 'examples/standby/README.md'


def section(page, heading):
    """The text below a heading, up to the next one."""
    with open(os.path.join(TOP, page), encoding='utf-8') as file:
        text = file.read()
    found = re.search(r'^#+ %s\n(.*?)(?=^#+ |\Z)' % re.escape(heading), text, re.MULTILINE | re.DOTALL)
    if not found:
        raise ValueError('%s has no %s' % (page, heading))
    # a line of a command may begin with # too, but not in column one of these pages
    return found.group(1)


def steps(page, heading):
    """The commands of each numbered step that has some."""
    commands, number = {}, None
    for line in re.findall(r'^(?:(\d+)\. |   ```sh\n((?:   .*\n|\n)*?)   ```)', section(page, heading), re.MULTILINE):
        if line[0]:
            number = int(line[0])
        else:
            commands[number] = commands.get(number, '') + re.sub('^   ', '', line[1], flags=re.MULTILINE)
    return commands


def commands(page, heading):
    """The commands below a heading that are in no step."""
    return re.findall(r'^```sh\n(.*?)^```', section(page, heading), re.MULTILINE | re.DOTALL)
