"""The words that lines of reports have in common: docs/PROFILE.md, Reports."""


def text_of(lines):
    """Each line ends with LF."""
    return ''.join(line + '\n' for line in lines)


def load_text(visit):
    """Whether it came full."""
    return 'FULL' if visit.is_full else 'EMPTY'


def moment_text(moment):
    """As 2024-03-05 09:10."""
    return '%s-%s-%s %s:%s' % (moment[0:4], moment[4:6], moment[6:8], moment[8:10], moment[10:12])


def passage_text(passage):
    """How, by which partner's number, and when."""
    return '%s %s %d %s' % (passage.way.upper(), *passage.source, moment_text(passage.moment))
