"""Times python-hl7 on reports, and prints it beside the library's own times: hl7_times.py FOLDER KIND ..

FOLDER has a report KIND.hl7 for each kind, and a file `times` of lines ROW MICROSECONDS for the library, which may be empty.
All of it in microseconds, as medians; what is asked of a message is timed with its parsing, since the library reads the
message for each question too.
"""

import platform
import statistics
import sys
import time

import hl7

LEAST_SAMPLES = 5
SECONDS = 3.0


def parse(report):
    return hl7.parse(report, encoding="latin-1")


def one_field(report):
    """The value of the last result."""
    return str(parse(report).segments("OBX")[-1][5])


def every_field(report):
    """How many fields there are, each of which was looked at."""
    message = parse(report)
    return sum(len(str(field)) >= 0 for segment in message for field in segment[1:])


def microseconds(calls, report):
    """The medians of calls that are made in turns, as many as fit some seconds, and of five at least."""
    samples = [[] for _ in calls]
    begun = time.perf_counter()
    while len(samples[0]) < LEAST_SAMPLES or time.perf_counter() - begun < SECONDS:
        for call, taken in zip(calls, samples):
            # Of the processor: a call takes long enough to be interrupted by others.
            start = time.process_time_ns()
            call(report)
            taken.append((time.process_time_ns() - start) / 1000)
    return [statistics.median(taken) for taken in samples]


def main():
    folder, kinds = sys.argv[1], sys.argv[2:]
    with open(f"{folder}/times", encoding="ascii") as lines:
        ours = dict(line.split() for line in lines)
    print(f"python-hl7 {hl7.__version__}, Python {platform.python_version()}; all in µs")
    print()
    print("| Report | Bytes | Fields | hl7.parse | and a field | and every field | read | find OBX-5 | verdict |")
    print("|---|---|---|---|---|---|---|---|---|")
    for kind in kinds:
        with open(f"{folder}/{kind}.hl7", "rb") as file:
            report = file.read()
        theirs = [f"{median:.0f}" for median in microseconds((parse, one_field, every_field), report)]
        own = [ours.get(f"{row}-{kind}", "-") for row in ("read", "find-OBX-5", "verdict")]
        print("|", " | ".join([kind, str(len(report)), str(every_field(report)), *theirs, *own]), "|")


main()
