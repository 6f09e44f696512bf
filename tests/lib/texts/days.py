"""Last days of lines (krl(1), THE TEXT OF A LIST), as a year, a month and a day, which are compared
as they are. The calendar is that of Python."""

import calendar
import datetime
import re

from wire import HIGHEST

# The last second of a leap day: when lists are made, unless a test says another time.
NOW = 1_835_481_599
DATE = "[0-9]{4}-[0-9]{2}-[0-9]{2}"
FIRST = datetime.datetime(1970, 1, 1)
# The first second after the year 9999.
LAST = 253_402_300_800


def in_calendar(text):
    """The day that is written so, if there is one."""
    if not re.fullmatch(DATE, text):
        return None
    year, month, day = map(int, text.split("-"))
    if not 1 <= month <= 12 or not 1 <= day <= calendar.monthrange(year, month)[1]:
        return None
    return year, month, day


def at(seconds):
    """The day of a time in UTC. No day that can be written is after the year 9999."""
    if seconds >= LAST:
        return 10_000, 1, 1
    it = FIRST + datetime.timedelta(seconds=seconds)
    return it.year, it.month, it.day


def text(day):
    return "%04d-%02d-%02d" % day


TODAY = at(NOW)
SOME = ["0000-01-01", "0000-02-29", "0001-01-01", "1969-12-31", "1970-01-01", "1999-12-31"]
SOME += ["2000-02-29", "2028-02-28", "2028-02-29", "2028-03-01", "2100-02-28", "9999-12-31"]


def near(source, today):
    """Mostly the day itself or one that is near, and sometimes another."""
    if source.random() < 0.2 or today[0] > 9999:
        return in_calendar(source.choice(SOME))
    some = [0, 0, 1, 1, 2, 27, 28, 29, 30, 31, 365, 366, 400]
    number = datetime.date(*today).toordinal() + source.choice([-1, 1]) * source.choice(some)
    it = datetime.date.fromordinal(min(max(number, 1), datetime.date.max.toordinal()))
    return it.year, it.month, it.day


def moment(source):
    """A time, often the first or the last second of a day, and the day is often one of SOME."""
    sort = source.randrange(20)
    if sort == 0:
        return source.choice([LAST, LAST + 86_399, 1 << 63, HIGHEST])
    day = source.randrange(LAST // 86_400)
    if sort < 10:
        day = datetime.date(*in_calendar(source.choice(SOME[4:]))) - FIRST.date()
        day = min(max(day.days + source.randrange(-2, 3), 0), LAST // 86_400 - 1)
    return day * 86_400 + source.choice([0, 0, 1, 43_200, 86_399, 86_399])


# ---- days in comments and in key IDs

COMMENTS = [" # until tomorrow", " # until 2027/02/28", "\t# until  2027-1-01"]
COMMENTS += [" # until the 2027-01-01", " # unti 2027-01-01", " # until # 2027-01-01"]
COMMENTS += [" # 2027-01-01 until"]
WITH_DAY = [" # until 2027-01-01", "\t#until 1999-12-31", " # UNTIL: 9999-12-31"]
WITH_DAY += [" # a # until=2027-01-01", " # until\t :=2028-02-29", " # untiluntil 0000-02-29"]
WITH_DAY += [" # OPS-7 until2027-01-01, or so", " # until 2027-02-29 until 2027-03-01"]
WITH_DAY += [" # not-until 2027-01-011"]
# Dates that are not in the calendar.
WITH_DAY += [" # until 2027-02-29", " # until 2026-02-30", "\t# Until:0000-00-00"]
WITH_DAY += [" #until 9999-99-99"]


def is_said(text):
    """Whether a text has the word of a last day, and a date behind it. The calendar need not have
    the date."""
    said = "until[ \t:=]*" + DATE
    if isinstance(text, bytes):
        said = said.encode()
    return bool(re.search(said, text, re.IGNORECASE | re.ASCII))
