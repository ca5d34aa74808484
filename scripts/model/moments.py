"""Moments of the calendar."""
from functools import lru_cache

DIGITS = '0123456789'


def are_digits(value, least, most):
    """From `least` to `most` of the digits 0 to 9, and nothing else."""
    return least <= len(value) <= most and all(character in DIGITS for character in value)


def days_of_month(year, month):
    """The Gregorian calendar, also where it was not in use: the years 0000 to 9999."""
    is_leap = year % 400 == 0 or (year % 4 == 0 and year % 100 != 0)
    return [31, 29 if is_leap else 28, 31, 30, 31, 30, 31, 31, 30, 31, 30, 31][month - 1]


def moment_of(text, length):
    """The moment of a text of 8 digits (2379 is 102: CCYYMMDD, at 00:00) or of 12 (2379 is 203: CCYYMMDDHHMM), as
    12 digits. None where the text has not `length` digits, or the calendar has no such moment."""
    if not are_digits(text, length, length):
        return None
    moment = text.ljust(12, '0')
    year, month, day = int(moment[0:4]), int(moment[4:6]), int(moment[6:8])
    hour, minute = int(moment[8:10]), int(moment[10:12])
    exists = 1 <= month <= 12 and 1 <= day <= days_of_month(year, month) and hour <= 23 and minute <= 59
    return moment if exists else None


@lru_cache(maxsize=None)
def days_before_year(year):
    """The days of all years from 0000 on before a year."""
    return sum(days_of_month(before, month) for before in range(year) for month in range(1, 13))


def day_number(moment):
    """The days from 0000-01-01 to the date of a moment."""
    year, month, day = int(moment[0:4]), int(moment[4:6]), int(moment[6:8])
    return days_before_year(year) + sum(days_of_month(year, before) for before in range(1, month)) + day - 1
