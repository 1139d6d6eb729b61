"""What the tests in Python share: the counting of comparisons, and calls of the program and of the C library."""

import argparse
import ctypes
import os
import subprocess
import tempfile

MAX_FAILURES = 20
TIME_LIMIT = 600  # seconds for one run of the program
FORMATS = ("non", "mk", "nin")  # in the order of the numbers of nonograde.h
PICKS = ("first", "most")
BUFFER_TOO_SMALL = 1

# The status that nonograde.h has for each fault.
STATUSES = {
    "TooLong": 4,
    "NoSize": 5,
    "BadSize": 6,
    "NoSection": 7,
    "BadLine": 8,
    "Twice": 9,
    "BadCount": 10,
    "BadNumber": 11,
    "BadGoal": 12,
    "Ambiguous": 13,
}


class TooManyFailures(Exception):
    """Raised when a test stops because so many comparisons failed."""


class Results:
    """The number of comparisons that passed, and of those that failed."""

    def __init__(self):
        self.passed = self.failed = 0

    def compare(self, what, subject, wanted, given):
        """Counts one comparison. If it fails, prints what was compared, and of which text or puzzle."""
        if wanted == given:
            self.passed += 1
            return
        self.failed += 1
        subject, wanted, given = [repr(value)[:300] for value in (subject, wanted, given)]
        print(f"FAILED {what} {subject}: wanted {wanted}, given {given}", flush=True)
        if self.failed == MAX_FAILURES:
            raise TooManyFailures


class Program:
    """The program, run in a folder of its own."""

    def __init__(self, path, folder):
        self._path, self._folder = os.path.abspath(path), os.fsencode(folder)

    def write(self, name, text):
        """Writes a file of this name and text into the folder."""
        with open(os.path.join(self._folder, os.fsencode(name)), "wb") as file:
            file.write(text)

    def run(self, *words, text=b"", output=subprocess.PIPE):
        """Runs the program on these words with `text` on standard input. Returns its exit status, standard output, or None if
        that is another file, and standard error."""
        streams = {"input": text, "stdout": output, "stderr": subprocess.PIPE}
        ran = subprocess.run([self._path, *words], cwd=self._folder, **streams, timeout=TIME_LIMIT, check=False)
        return ran.returncode, ran.stdout, ran.stderr

    def printed(self, *words, text=b""):
        """Returns what the program prints, or as a str the fault that it reports. All that is neither is a str too."""
        status, printed, reported = self.run(*words, text=text)
        if status == 0 and not reported:
            return printed
        if status == 1 and not printed and reported.startswith(b"nonograde: ") and reported.endswith(b"\n"):
            return reported[len(b"nonograde: ") : -1].decode("ascii", "backslashreplace")
        return f"exit status {status}, {reported!r}, {printed!r}"

    def printed_of(self, name, text, *words):
        """Returns the same for these words and a file of this name and text."""
        self.write(name, text)
        return self.printed(*words, name)


class Reply(ctypes.Structure):
    """What a call of the library returns: its status, and how many bytes its answer has."""

    _fields_ = [("status", ctypes.c_uint32), ("length", ctypes.c_size_t)]


def format_of(name):
    """Returns the number of the format that a name's ending determines, or None if it is that of no format."""
    dot, ending = name.rpartition(b".")[1:]
    word = ending.lower().decode("latin-1")
    return FORMATS.index(word) if dot and word in FORMATS else None


class Library:
    """The shared library in a folder. Names and texts are bytes. Each call returns its answer, or as a str the fault. The
    library takes formats as numbers: a name without the ending of a format is refused here, as the program does."""

    def __init__(self, folder):
        library = ctypes.CDLL(os.path.abspath(os.path.join(folder, "libnonograde.so")))
        text, number = [ctypes.c_char_p, ctypes.c_size_t], ctypes.c_uint32
        calls = {
            "solve": [*text, *text, number, number, number],
            "report": [*text, *text, number, number, number],
            "lines": [*text, number],
            "convert": [*text, number, number],
            "version": [],
        }
        self._calls = {}
        for name, words in calls.items():
            call = getattr(library, f"nonograde_{name}")
            call.argtypes, call.restype = [*words, ctypes.c_void_p, ctypes.c_size_t], Reply
            self._calls[name] = call
        self._resize(4096)

    def solve(self, name, text, guesses, pick):
        """Returns what `nonograde_solve` answers."""
        return self._answer_on(name, "solve", name, len(name), text, len(text), format_of(name), guesses, PICKS.index(pick))

    def report(self, name, text, guesses, pick):
        """Returns what `nonograde_report` answers."""
        return self._answer_on(name, "report", name, len(name), text, len(text), format_of(name), guesses, PICKS.index(pick))

    def lines(self, name, text):
        """Returns what `nonograde_lines` answers."""
        return self._answer_on(name, "lines", text, len(text), format_of(name))

    def convert(self, name, text, to):
        """Returns what `nonograde_convert` answers."""
        return self._answer_on(name, "convert", text, len(text), format_of(name), FORMATS.index(to))

    def version(self):
        """Returns what `nonograde_version` answers."""
        return self._answer("version")

    def _resize(self, capacity):
        self._capacity, self._buffer = capacity, ctypes.create_string_buffer(capacity)

    def _answer_on(self, name, call, *words):
        return "UnknownFormat" if format_of(name) is None else self._answer(call, *words)

    def _answer(self, call, *words):
        reply = self._calls[call](*words, self._buffer, self._capacity)
        if reply.status == BUFFER_TOO_SMALL and reply.length > self._capacity:
            self._resize(reply.length)
            reply = self._calls[call](*words, self._buffer, self._capacity)
        if reply.length > self._capacity:
            return f"status {reply.status}, length {reply.length}"
        answer = ctypes.string_at(self._buffer, reply.length)
        if reply.status == 0:
            return answer
        fault = answer.decode("ascii", "backslashreplace")
        return fault if STATUSES.get(fault.partition(":")[0]) == reply.status else f"status {reply.status}, {fault}"


def run_test(description, test):
    """Calls `test` with the results, and with the program and the library, or None, as the command line names them. Prints
    the counts. Returns the exit status: 1 if a comparison failed."""
    parser = argparse.ArgumentParser(description=description)
    parser.add_argument("--program", help="the program")
    parser.add_argument("--library", metavar="FOLDER", help="the folder of libnonograde.so")
    options = parser.parse_args()
    if not options.program and not options.library:
        parser.error("give at least one of --program and --library")
    results = Results()
    with tempfile.TemporaryDirectory() as folder:
        program = Program(options.program, folder) if options.program else None
        library = Library(options.library) if options.library else None
        try:
            test(results, program, library)
        except TooManyFailures:
            pass
    print(f"{results.passed} passed, {results.failed} failed")
    return 1 if results.failed else 0
