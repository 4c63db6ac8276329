"""A submission as it stood at some second: for rehearsing deliveries."""
import dataclasses
from array import array

import pozsmeteg

from . import arguments, files, texts


def cut(submission, second):
    """Fields and nodes are known ahead and stay whole; each list of measurements ends at the second."""
    seen = [place for place, time in enumerate(submission.obs_times) if time <= second]
    return dataclasses.replace(
        submission,
        **{name: cut_keyed(getattr(submission, name), second) for name in texts.MEASURED},
        obs_times=array("d", (submission.obs_times[place] for place in seen)),
        obs_values=array("d", (submission.obs_values[place] for place in seen)),
        good=bytearray(submission.good[place] for place in seen),
    )


def cut_keyed(keyed, second):
    keys, values = keyed
    width = len(values) // len(keys) if keys else 1
    left = [place for place, key in enumerate(keys) if key <= second]
    numbers = array("d")
    for place in left:
        numbers.extend(values[width * place : width * (place + 1)])
    return pozsmeteg.Keyed(array("q", (keys[place] for place in left)), numbers)


def run(options):
    submission, digest = texts.read(options.submission)
    parts = texts.parts_of(cut(submission, options.second))
    if options.output:
        files.keep_apart(options.output, options.submission)
        files.write(options.output, parts)
    else:
        files.put_out(parts)
    return 0


def register(add):
    parser = add(
        "cut", run, "the submission as it stood when the measurements had reached a second (GPS)",
        "desk cut whole.txt 695320200 -o first.txt", "desk cut whole.txt 695320200 >first.txt")
    parser.add_argument("submission", metavar="SUBMISSION", help="the text of a submission")
    parser.add_argument("second", metavar="SECOND", type=arguments.number("the second"), help="the last second (GPS) of each list of measurements")
    parser.add_argument("-o", "--output", metavar="FILE", help="the text of the shorter submission (default: standard output)")
