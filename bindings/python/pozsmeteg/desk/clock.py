"""GPS seconds past 2000-01-01 12:00 as calendar time, which is GPS time as well: no leap second is taken off."""
import datetime

ORIGIN = datetime.datetime(2000, 1, 1, 12)


def calendar(seconds, form="%Y-%m-%d %H:%M:%S"):
    return (ORIGIN + datetime.timedelta(seconds=seconds)).strftime(form)


def precise(seconds):
    """To the millisecond."""
    millis = round(seconds * 1000)
    return f"{calendar(millis // 1000)}.{millis % 1000:03d}"
