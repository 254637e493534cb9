"""Dates, times and durations: RFC 3339, with what neighbouring standards write."""
import itertools
import re

from rows.grammars.common import (ASCII, BYTE_ORDER_MARK, around, by_pairs, changed_row, counts, decorated_row,
                                  in_forms, never, pair_rows, short_rows, texts, whole, word_rows, words)

# Dates and times: RFC 3339, sections 5.6 and 5.7, with a leap second in the last minute of any day of UTC.

def days_in(year, month):
    """How many days the month has."""
    is_leap = year % 4 == 0 and (year % 100 != 0 or year % 400 == 0)
    return 28 + is_leap if month == 2 else 30 if month in (4, 6, 9, 11) else 31


def ends_of_months():
    """The last day of each month, the days beside it, and those that are none."""
    for year in (1600, 1900, 1972, 1999, 2000, 2023, 2024, 2100, 2200, 2400):
        for month in range(1, 13):
            last = days_in(year, month)
            for day in (0, 1, last - 1, last, last + 1):
                yield f"{year}-{month:02}-{day:02}", 1 <= day <= last


def clock(minutes):
    """A time of day in hours and minutes."""
    return f"{minutes // 60 % 24:02}:{minutes % 60:02}"


OFFSETS = [0, 1, 29, 30, 59, 60, 330, 345, 719, 720, 721, 840, 1379, 1380, 1438, 1439]


def leap_seconds():
    """Second 60 in the last minute of a day of UTC, and in the minutes and hours beside it, at each offset."""
    for east, fraction in itertools.product(OFFSETS + [-offset for offset in OFFSETS], ("", ".0", ".999")):
        sign = "-" if east < 0 else "+"
        for beside in (0, -1, 1, -60, 60, 720):
            local = clock((1439 + east + beside) % 1440)
            yield f"{local}:60{fraction}{sign}{clock(abs(east))}", beside == 0


# The rules `dur-date`, `dur-time` and `duration` of appendix A.
DURATION_DATE = r"(?:[0-9]+D|[0-9]+M(?:[0-9]+D)?|[0-9]+Y(?:[0-9]+M(?:[0-9]+D)?)?)"
DURATION_TIME = r"T(?:[0-9]+H(?:[0-9]+M(?:[0-9]+S)?)?|[0-9]+M(?:[0-9]+S)?|[0-9]+S)"
DURATION = rf"P(?:{DURATION_DATE}(?:{DURATION_TIME})?|{DURATION_TIME}|[0-9]+W)"


def durations():
    """Each choice of units in their order, each pair of units in either order, and each of the same behind a `T`."""
    for chosen in itertools.product((0, 1), repeat=6):
        for numbers in ((1, 2, 3, 4, 5, 6), (10, 200, 3, 40, 500, 60)):
            amounts = [f"{number}{unit}" if taken else "" for number, unit, taken in zip(numbers, "YMDHMS", chosen)]
            date, time = "".join(amounts[:3]), "".join(amounts[3:])
            yield from (f"P{date}T{time}", f"P{date}{time}", f"P{date}W{time}", f"P{date}T{time}1W")
    for one, other in itertools.product("YMWDHST", repeat=2):
        yield from (f"P1{one}2{other}", f"PT1{one}2{other}", f"P1{one}T2{other}", f"P1{one}{other}", f"P{one}2{other}")
    for text in ("P1D", "P2W", "PT1S", "P1Y2M3DT4H5M6S"):
        yield from (f"{BYTE_ORDER_MARK}{text}", f"{text}{BYTE_ORDER_MARK}", f"{text}\n", f" {text}")
        yield from (f"+{text}", f"-{text}", text.lower())
        yield from (text.replace("1", number) for number in ("1.5", "-1", "1,5"))


def shapes():
    """Each right row of units, with one amount changed: twice, long, with no digits, and with another character."""
    dates, times = ("", "D", "M", "MD", "Y", "YM", "YMD"), ("", "H", "HM", "HMS", "M", "MS", "S")
    for date, time in [*itertools.product(dates, times), ("W", "")]:
        units = [*date, *time]
        for at in range(len(units)):
            for amount in ("5", "05", "5{0}6", "", "9" * 300, "5:", "/5", "5.", "-5", "\u0665"):
                amounts = [f"{amount if place == at else 1}{unit}" for place, unit in enumerate(units)]
                amounts = [told.replace("{0}", unit) for told, unit in zip(amounts, units)]
                behind = "".join(amounts[len(date):])
                yield f"P{''.join(amounts[:len(date)])}{'T' if behind else ''}{behind}"


def is_date(text):
    """The rule full-date and its restrictions."""
    found = re.fullmatch(r"([0-9]{4})-([0-9]{2})-([0-9]{2})", text)
    year, month, day = map(int, found.groups()) if found else (0, 0, 0)
    return found is not None and 1 <= month <= 12 and 1 <= day <= days_in(year, month)


# The rule full-time without second 60.
CLOCK = "(?:[01][0-9]|2[0-3]):[0-5][0-9]"
is_time_of_day = whole(rf"{CLOCK}:[0-5][0-9](?:\.[0-9]+)?(?:[Zz]|[+-]{CLOCK})")


def is_moment(text):
    """The rule date-time without second 60."""
    return is_date(text[:10]) and text[10:11] in ("T", "t") and is_time_of_day(text[11:])


def is_full_time(text):
    """The rule full-time, with second 60 in the last minute of a day of UTC."""
    if is_time_of_day(text):
        return True
    found = re.fullmatch(rf"({CLOCK}):60(?:\.[0-9]+)?([Zz]|[+-]{CLOCK})", text)
    if not found:
        return False
    local, offset = ([int(number) for number in re.findall("[0-9]+", part)] for part in found.groups())
    east = 60 * offset[0] + offset[1] if offset else 0
    return (60 * local[0] + local[1] + (east if found[2][0] == "-" else -east)) % 1440 == 1439


def is_date_time(text):
    """The rule date-time."""
    return is_date(text[:10]) and text[10:11] in ("T", "t") and is_full_time(text[11:])


# The parts of a time and of a date, right and wrong ones; second 60 and the last days of a month are right in some.
TIME_PARTS = [
    (["00:", "01:", "02:", "09:", "12:", "20:", "22:", "23:"], ["24:", "1:", "30:"]),
    (["00:", "01:", "09:", "29:", "30:", "31:", "58:", "59:"], ["60:", "1:"]),
    (["00", "01", "09", "30", "58", "59"], ["60", "61", "1"]),
    (["", ".0", ".5", ".05", ".50", ".000", ".999", ".123456", ".1234567", ".000000000", ".9999999999", f".{'0' * 40}"],
     [".", ",5", ".5."]),
    (["Z", "z", "+00:00", "-00:00", "+00:01", "-00:01", "+00:30", "-00:30", "+01:00", "-01:00", "+05:45", "-09:30",
      "-03:20", "+12:00", "-12:00", "+12:45", "+13:59", "+14:00", "-14:00", "+19:00", "-19:59", "+20:00", "+23:00",
      "-23:00", "+23:59", "-23:59"], ["", "+24:00", "-12:60", "+0100", "-01", "ZZ"])]
YEARS = ["0000-", "0001-", "0004-", "0099-", "0100-", "0400-", "1000-", "1500-", "1582-", "1600-", "1752-", "1899-",
         "1900-", "1904-", "1969-", "1970-", "1971-", "1972-", "1999-", "2000-", "2023-", "2024-", "2038-", "2100-",
         "2400-", "4000-", "9996-", "9999-"]
MONTHS = [f"{month:02}-" for month in range(1, 13)]
DAYS = [f"{day:02}" for day in range(1, 32)]
DATE_PARTS = [(YEARS[::3], ["999-", "10000-"]), (MONTHS, ["00-", "13-", "1-"]),
              (["01", "10", "19", "28"], ["00", "29", "30", "31", "32", "1"])]


def pairs_of_times():
    """Each part of a time, of a date and of both with each other."""
    yield "each choice of a part with each of each other part: hours, minutes, seconds, fractions and offsets"
    yield texts("time", by_pairs(TIME_PARTS, 4), is_full_time)
    yield "years, months and days; and all of these with a time behind them"
    yield texts("date", ["".join(some) for some in itertools.product(YEARS, MONTHS, DAYS[::9] + DAYS[27:])], is_date)
    yield texts("date", by_pairs([(YEARS, ["999-", "10000-"]), *DATE_PARTS[1:]]), is_date)
    yield texts("date-time", by_pairs([*DATE_PARTS, (["T", "t"], [" ", "_", ""]), *TIME_PARTS], 1), is_date_time)
    yield "second 60 of the last minute of UTC, on each day and by each offset: no rule of the date is asked"
    leap = [(text, is_right) for text, is_right in leap_seconds() if is_right or "60." not in text]
    days = ["0000-01-01", "0000-12-31", "1500-06-15", "1582-10-10", "1969-12-31", "1971-06-30", "1972-06-30",
            "2000-02-29", "2023-02-28", "2024-03-31", "9999-01-01", "9999-12-31"]
    moments = {f"{days[at % len(days)]}{'Tt'[at % 2]}{text}": is_right for at, (text, is_right) in enumerate(leap)}
    moments |= {f"{day}T{text}": is_right for day in days for text, is_right in leap[::37]}
    yield texts("date-time", moments, moments.get)
    yield "second 60 in each hour and in each minute, before each form of no offset"
    clocks = [f"{hour:02}:59:60" for hour in range(24)] + [f"23:{minute:02}:60" for minute in range(60)]
    no_offset = [f"{local}{fraction}{zone}" for local in clocks for fraction in ("", ".5", ".0")
                 for zone in ("Z", "z", "+00:00", "-00:00")]
    yield texts("time", no_offset, is_full_time)
    yield texts("date-time", [f"2016-12-31{'Tt'[at % 2]}{time}" for at, time in enumerate(no_offset)], is_date_time)


def letters_of_durations():
    """Each right row of units with each of its letters in lower case, changed, doubled, left out or moved."""
    dates, times = ("", "D", "M", "MD", "Y", "YM", "YMD"), ("", "H", "HM", "HMS", "M", "MS", "S")
    for date, time in [*itertools.product(dates, times), ("W", "")]:
        text = f"P{''.join(f'1{unit}' for unit in date)}{'T' if time else ''}{''.join(f'2{unit}' for unit in time)}"
        yield from (text, text.replace("1", "30"), text.replace("2", "07"))
        for at, letter in enumerate(text):
            if letter.isalpha():
                for other in [letter.lower(), *"YMWDHST", letter * 2, "", "1" + letter, f".5{letter}", f" {letter}"]:
                    yield text[:at] + other + text[at + 1:]


def day_rows():
    """Days, and second 60 at the ends of months."""
    days = dict(ends_of_months())
    yield "the last day of each month and those beside it, in leap years and others (section 5.7)"
    yield texts("date", days, days.get)
    yield texts("date-time", [f"{day}T12:00:00Z" for day in days], lambda text: days[text[:10]])
    yield "second 60 at each month's end and beside it: on any day, and in the last minute of UTC alone"
    leap_times = ("23:59:60Z", "00:59:60+01:00")
    times = ("23:59:60Z", "23:58:60Z", "22:59:60Z", "23:59:61Z", "00:59:60+01:00", "00:00:60Z")
    some_days = [day for day in days if day[:4] in ("1900", "1972", "2016", "2023", "2024")]
    at_ends = [f"{day}T{time}" for day in some_days for time in times]
    yield texts("date-time", at_ends, lambda text: days[text[:10]] and text[11:] in leap_times)
    leap = dict(leap_seconds())
    yield texts("time", leap, leap.get)
    yield texts("date-time", [f"2024-07-01T{time}" for time in leap], lambda text: leap[text[11:]])


def offset_rows():
    """Offsets from UTC, right and wrong ones, with a colon or another sign in them."""
    yield "offsets at their ends"
    hours, minutes = (0, 1, 9, 12, 14, 19, 20, 23, 24, 29, 99), (0, 1, 29, 30, 59, 60, 61, 99)
    offsets = [f"{sign}{hour:02}:{minute:02}" for sign in "+-" for hour in hours for minute in minutes]
    is_offset = whole(r"[+-](?:[01][0-9]|2[0-3]):[0-5][0-9]")
    yield texts("time", [f"12:30:45{offset}" for offset in offsets], lambda text: is_offset(text[8:]))
    yield texts("time", [f"12:30:45.5{offset}" for offset in offsets], lambda text: is_offset(text[10:]))
    others = [offset.replace(":", sign) for offset in offsets[:20] for sign in ".\u0000;,/ 9"]
    yield texts("time", [f"12:30:45{offset}" for offset in others], never)


# Dates, times and durations of ISO 8601 that RFC 3339 does not have.
OTHER_DATES = (
    "20240229", "2024-0229", "202402-29", "2024-02", "2024", "202402", "--02-29", "---29", "24-02-29", "2024-060",
    "2024060", "2024-W09-4", "2024W094", "2024-W09", "+2024-02-29", "-2024-02-29", "+002024-02-29", "02024-02-29",
    "2024-2-29", "2024-02-1", "2024/02/29", "2024.02.29", "29-02-2024", "02-29-2024", "2024-02-29Z",
    "2024-02-29+01:00", "2024-Feb-29", "2024\u201002\u201029", "2024\u221202\u221229")
OTHER_TIMES = (
    "123045Z", "12:3045Z", "1230:45Z", "12:30Z", "1230Z", "12Z", "12:30:45", "12:30:45+0100", "12:30:45-0100",
    "12:30:45+01", "12:30:45-01", "12:30:45+1:00", "12:30:45+01:0", "12:30:45+1", "12:30:45+01:00:00",
    "12:30:45.5+0100", "12:30:45.5+01", "12:30:45+0000", "12:30:45-0000", "12:30:45+00", "12:30:45Z+01:00",
    "12:30:45 Z", "12:30:45 +01:00", "12:30:45\u221201:00", "12:30:45\u201301:00", "12:30:45\u201001:00",
    "12:30:45,5Z", "12:30:45,5+01:00", "12:30.5Z", "12.5Z", "12:30:45:5Z", "T12:30:45Z", "t12:30:45Z", "12:30:45UTC",
    "12:30:45GMT", "12:30:45 UTC", "12:30:45A", "12:30:45+Z", "12:30:45ZZ", "12:30:45zZ", "12:30:45Z[Europe/Berlin]",
    "12-30-45Z", "12.30.45Z", "1:30:45Z", "12:3:45Z", "12:30:5Z", "012:30:45Z", "12:30:45pmZ", "12:30:45 PM",
    "24:00:00Z", "24:00:00.0Z", "24:00:00+00:00", "24:00:01Z", "23:60:00Z", "12:30:60Z", "12:30:61Z",
    "12:30:45+24:00", "12:30:45-24:00", "12:30:45+23:60", "12:30:45+12:60", "12:30:45\u00b101:00")
OTHER_DURATIONS = (
    "P0.5Y", "P1.5M", "P1.5D", "P0.5W", "PT1.5H", "PT1.5M", "PT1.5S", "PT0,5S", "P1,5D", "PT36.5H", "-P1D", "+P1D",
    "P-1D", "P+1D", "PT-1H", "P0001-02-03T04:05:06", "P00010203T040506", "P1Y2M3DT04:05:06", "P1Y1W", "P1M1W",
    "P1W1D", "P1WT1H", "PT1W", "P1H", "P1S", "PT1D", "PT1Y", "P1DT", "P1YT", "PT", "P", "P1", "PT1", "P1D1D", "P2D1Y",
    "P1M1Y", "PT1M1H", "PT1S1M", "P1Y1D", "PT1H1S", "P 1D", "P1 D", "P1D ", "1D", "T1H", "P1DT1", "P1D1H",
    "P1Y2M3W4D", "P\u0661D", "P\uff11D", "P1DP1D", "P1D/P1D", "R5/P1D", "R/P1D")


def decorated_times():
    """Texts of each format with what stands around them and in them."""
    yield "what other programs pass over, put around a text or take for a character of it"
    yield decorated_row("date", ("2024-02-29", "0000-12-31"), is_date)
    yield decorated_row("time", ("12:30:45Z", "12:30:45.5+01:00"), is_time_of_day)
    yield decorated_row("date-time", ("2024-02-29T12:30:45Z", "2024-02-28t01:02:03.4-05:06"), is_moment)
    yield decorated_row("duration", ("P1Y2M3DT4H5M6S", "P2W", "PT1S"), whole(DURATION))
    yield "each character of ASCII in the place of each character, and between them"
    yield changed_row("date", ("2024-02-29", "1999-12-31", "0400-10-01"), is_date)
    yield changed_row("time", ("12:30:45Z", "09:59:08.5+01:00", "23:00:59.12-23:59"), is_time_of_day)
    yield changed_row("date-time", ("2024-02-29T12:30:45z", "1999-12-31t23:59:59.9-00:01"), is_moment)
    wholes = ("P1Y2M3DT4H5M6S", "P20W", "P1MT2M", "PT10S", "P3DT1H", "P1M2D", "P1Y2M", "PT1M2S", "PT1H2M", "P1D",
              "PT1H")
    yield changed_row("duration", wholes, whole(DURATION))


# More of what other standards and programs write for a date, a time or a duration: RFC 9557, XML Schema, mail, clocks.
FURTHER_DATES = [
    "20240229", "2024-060", "2024060", "2024-W09-4", "2024W094", "2024-02", "2024", "--02-29", "-2024-02-29",
    "+2024-02-29", "+12024-02-29", "02-29", "2024-2-9", "24-02-29", "2024/02/29", "2024.02.29", "29-02-2024",
    "02/29/2024", "2024-02-29Z", "2024-02-29z", "2024-02-29+01:00", "2024-02-29T", "2024-02-29T00:00:00Z",
    "2024-Feb-29", "29 Feb 2024", "2024-02-30", "2024-02-29[u-ca=iso8601]", "2024\u201302\u201329",
    "2024\u221202\u221229", "today"]
FURTHER_TIMES = [
    "12:30", "12:30Z", "1230Z", "123045Z", "12:30:45", "12:30:45.5", "12:30:45,5Z", "12.5Z", "12:30.5Z", "T12:30:45Z",
    "12Z", "12:30:45 Z", "12:30:45+01", "12:30:45+0100", "12:30:45+1:00", "12:30:45 +01:00", "12:30:45GMT",
    "12:30:45UTC", "12:30:45EST", "12:30:45A", "12:30:45J", "12:30:45PM", "12:30:45\u221201:00", "12:30:45\u00b100:00",
    "24:00:00Z", "24:00:00+00:00", "12:30:45[Europe/Paris]", "12:30:45Z[UTC]", "12:30:45+01:00[Europe/Paris]",
    "12:30:45:00Z", "12:30:45;00Z", "12:30:45-00", "12:60:00Z", "12:30:61Z", "12:30:60Z", "12:30:45+24:00",
    "12:30:45+01:60", "12:30:45+00:00:00", "12:30:45+01:00:30", "1:30:45Z", "12h30m45s", "12-30-45Z", "12.30.45Z",
    "12:30:45.Z", "12:30:45Z.5", "12:30:45ZZ", "12:30:45+01:00Z", "12:30:45Z+01:00", "noon"]
FURTHER_DURATIONS = [
    "P", "PT", "P1", "1D", "P1DT", "P1D1H", "PT1", "P1.5D", "PT1.5S", "PT1,5S", "PT.5S", "P-1D", "-P1D", "+P1D", "P+1D",
    "PT-1S", "P1Y2W", "P1W2D", "P1WT1H", "P1Y1D", "PT1H1S", "P1D1M", "PT1S1M", "P1M1Y", "P1H", "PT1D", "PT1Y", "PT1W",
    "p1d", "P1d", "Pt1s", "P 1D", "P1 D", "PD", "PTS", "P1YD", "P0001-02-03T04:05:06", "P00010203T040506", "P1D/P1D",
    "R5/P1D", "P\u0661D", "P1.D", "P.5D", "1:00:00", "PT36H", "P400D", "P13M", "PT61M", "PT61S", "PT0S", "P0D", "P0Y",
    "P0W", "P3W", "P1Q", "P1DT1D", "P1DT1Y", "P1Y1Y", "PT1H1H", "P1Y1M1W1D", "PT1M1H", "P1YT1M", "P1MT1M", "1h30m",
    "1.5h", "P1Y1M1DT1H1M1.5S", "P1Y1M1DT1H1M1S1", "PP1D", "P1DP1D", "PTT1S", "T1S", "P1S"]


def other_forms():
    """Dates, times and durations of other standards, alone and as parts of a moment."""
    yield "what other standards write for a date, a time or a duration, and which of it stands in RFC 3339"
    yield texts("date", FURTHER_DATES, is_date)
    yield texts("time", FURTHER_TIMES, is_full_time)
    moments = [f"{date}{sign}{time}" for date, time in [*itertools.product(FURTHER_DATES, ["12:30:45Z"]),
                                                        *itertools.product(["2024-02-29"], FURTHER_TIMES)]
               for sign in ("T", "t", " ", "_", "", "TT", ", ")]
    moments += in_forms(("{}/2024-03-01T00:00:00Z", "{}/P1D"), moments[::13])
    yield texts("date-time", moments, is_date_time)
    yield texts("duration", FURTHER_DURATIONS, whole(DURATION))


# Forms of times and durations, the signs that stand in their gap, and how many of them.
WORDS_OF_TIMES = [("12:30:45{}", "+0:Z.", range(1, 6)), ("23:59:60{}", "+0:z-", range(1, 5)), ("{}Z", "12:.", (5, 6)),
                  ("12:30{}", ":05.Z", range(1, 6))]
WORDS_OF_DATES = [("2020-{}", "01-2", range(2, 6)), ("{}-01", "20-1", (3, 4, 5))]
WORDS_OF_MOMENTS = [("2020-02-29{}12:30:45Z", "Tt _-0", (0, 1, 2, 3)), ("2020-02-2{}:30:45Z", "9T1t", (3, 4, 5))]
WORDS_OF_DURATIONS = [("P{}", "1TDMHSYW", (1, 2, 3, 4)), ("{}", "P1TD-. ", (1, 2, 3, 4)),
                      ("P{}", ("1Y", "1M", "1D", "T", "1H", "1S", "1W"), (2, 3, 4))]


def time_rows():
    """The rows of dates, times, date-times and durations."""
    yield from word_rows([("time", is_full_time, WORDS_OF_TIMES), ("date", is_date, WORDS_OF_DATES),
                          ("date-time", is_date_time, WORDS_OF_MOMENTS),
                          ("duration", whole(DURATION), WORDS_OF_DURATIONS)])
    yield from other_forms()
    yield from pair_rows([("date", is_date, ("2024-02{}9", "{}24-02-29")),
                          ("duration", whole(DURATION), ("P1{}", "PT1{}")),
                          ("time", is_full_time, ("12:30:45{}Z", "12:30{}5Z", "12:30:45.5{}")),
                          ("date-time", is_date_time, ("2024-02-29{}2:30:45Z", "2024-02-29T12:30:45.1{}"))])
    yield from short_rows({"date": is_date, "time": is_full_time, "date-time": is_date_time,
                           "duration": whole(DURATION)})
    yield from decorated_times()
    yield from day_rows()
    yield from offset_rows()
    yield "what stands around a text"
    wholes = [("date", "2024-02-29"), ("time", "12:30:45Z"), ("time", "12:30:45.5+01:00"),
              ("date-time", "2024-02-29T12:30:45Z")]
    for of, text in wholes:
        yield texts(of, [text] + around(text), lambda other, text=text: other == text)
    between = ASCII + "\u0085\u00a0\u0422\u1e6a\uff34"
    yield texts("date-time", [f"2024-02-29{sign}12:30:45Z" for sign in between], lambda text: text[10] in "Tt")
    yield ("forms of ISO 8601 that section 5.6 does not have: basic ones, of less precision, of weeks and of days of a "
           "year")
    yield texts("date", OTHER_DATES, never)
    yield texts("time", OTHER_TIMES, never)
    others = [f"{date}T12:30:45Z" for date in OTHER_DATES] + [f"2024-02-29T{time}" for time in OTHER_TIMES]
    others += ["20240229T123045Z", "2024-02-29", "T12:30:45Z", "2024-02-29T", "12:30:45Z"]
    yield texts("date-time", others, never)
    yield texts("duration", OTHER_DURATIONS, never)
    yield "each choice of units, and each pair of them (appendix A)"
    yield texts("duration", durations(), whole(DURATION))
    for unit in ("Y", "M", "D", "W"):
        yield counts("duration", "9", 1, 1000, 1001, [["P", unit]])
    for unit in ("H", "M", "S"):
        yield counts("duration", "0", 1, 1000, 1001, [["PT", unit]])
    yield counts("time", "0", 1, 1000, 1001, [["12:30:45.", "Z"], ["12:30:45.", "+01:00"], ["23:59:60.", "-00:00"]])
    dates = [["2024-02-29T12:30:45.", "Z"], ["2024-02-29t12:30:45.", "-23:59"], ["1816-12-31T23:59:60.", "z"]]
    yield counts("date-time", "9", 1, 1000, 1001, dates)
    yield "more digits than a number of a machine has, in each unit of a whole duration"
    around_units = [["P", "Y1M1DT1H1M1S"], ["P1Y", "M1DT1H1M1S"], ["P1Y1M", "DT1H1M1S"], ["P1Y1M1DT", "H1M1S"],
                    ["P1Y1M1DT1H", "M1S"], ["P1Y1M1DT1H1M", "S"], ["PT", "H1M"], ["PT1H", "M"], ["PT1M", "S"],
                    ["P1M", "D"]]
    yield counts("duration", "9", 1, 120, 121, around_units)
    yield "no amount is too small or too great, and any digits are a fraction"
    amounts = [f"{number:0{size}}" for number in (*range(62), 99, 100, 365, 366, 1000) for size in (1, 2, 4)]
    yield texts("duration", shapes(), whole(DURATION))
    forms = ("P{}Y", "P{}M", "P{}W", "P{}D", "PT{}H", "PT{}M", "PT{}S", "P1Y{}M", "PT1H{}M", "P1M{}D", "P1Y1M{}D",
             "PT1M{}S", "PT1H1M{}S", "P1YT{}S", "P1DT{}M")
    yield texts("duration", in_forms(forms, amounts), whole(DURATION))
    fractions = words("09", (1, 2, 3)) + ["000000000", "123456789", "0000000001", "1234567890", "5" * 40]
    times = [f"{time}.{fraction}{zone}" for time in ("12:30:45", "00:00:00", "23:59:60") for fraction in fractions
             for zone in ("Z", "z", "+00:00", "-00:00")]
    yield texts("time", times, lambda text: True)
    moments = [f"{day}{time}" for day in ("0000-01-01T", "9999-12-31t", "1970-01-01T") for time in times]
    yield texts("date-time", moments, lambda text: True)
    edges = [f"{day}T{time}{zone}" for day in ("0000-01-01", "9999-12-31") for time in ("00:00:00", "23:59:59")
             for zone in ("+00:01", "-00:01", "+23:59", "-23:59")]
    yield texts("date-time", edges, lambda text: True)
    yield from pairs_of_times()
    yield "each letter of each row of units in lower case, changed into each other one, doubled and left out"
    yield texts("duration", letters_of_durations(), whole(DURATION))
