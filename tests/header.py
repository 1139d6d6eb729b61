"""What `nonograde.h` declares, and what the crate exports, each read from its source."""

import re

# How an argument of the crate is passed from C.
PASSED = {
    "Global": [],
    "&[u8]": [("const uint8_t *", ""), ("size_t ", "_length")],
    "&mut [u8]": [("uint8_t *", ""), ("size_t ", "_length")],
    "u32": [("uint32_t ", "")],
    "&mut Facts": [("nonograde_facts *", "")],
}


# What a call of the crate returns to C.
RETURNED = {"Reply": "nonograde_reply", "usize": "size_t", "u32": "uint32_t"}

# The words of the header for the variants of the crate that have other names.
WORDS = {"NOTHING": "NONE", "LINES": "LINE"}


def calls_of_header(header):
    """The calls that the header declares: their names, each with what it returns and with its arguments."""
    found = re.findall(r"^(\w+) (nonograde_\w+)\(([^)]*)\);", header, re.M)
    return {name: [returned, *re.split(r",\s*", arguments)] for returned, name, arguments in found}


def calls_of_crate(exports):
    """The same calls as `exports.rt` has them."""
    calls = {}
    for name, arguments, returned in re.findall(r'^pub extern "C" fn (nonograde_\w+)\(([^)]*)\) -> (\w+)', exports, re.M):
        pairs = [argument.split(": ") for argument in re.split(r",\s*", arguments.strip().rstrip(","))]
        words = [f"{kind}{argument}{ending}" for argument, type in pairs for kind, ending in PASSED[type]]
        calls[name] = [RETURNED[returned], *words]
    return calls


def enum_of_header(header, name):
    """The constants of an enum of the header with their numbers."""
    body = re.search(rf"^enum nonograde_{name} {{(.*?)}};", header, re.M | re.S)[1]
    return {word: int(number) for word, number in re.findall(r"NONOGRADE_(\w+) = (\d+)", body)}


def status_comments(header):
    """What the header says of each status, by the fault's word."""
    found = re.findall(r"NONOGRADE_(\w+) = \d+,? +/\* (.*) \*/", header)
    return {word.title().replace("_", ""): comment for word, comment in found}


def constant_of(word):
    """A name of the crate as a constant of C."""
    return re.sub(r"(?<=.)([A-Z])", r"_\1", word).upper()


def statuses_of_crate(faults):
    """The statuses as `faults.rt` has them, in the order of their numbers."""
    body = re.search(r"^pub enum Status {(.*?)^}", faults, re.M | re.S)[1]
    words = re.findall(r"^    (\w+),$", body, re.M)
    return {constant_of({"Answered": "Ok"}.get(word, word)): number for number, word in enumerate(words)}


def settings_of_crate(settings, type):
    """The numbers of a setting as `settings.rt` has them."""
    return {constant_of(word): int(number) for number, word in re.findall(rf"(\d+) => Some\({type}::(\w+)\)", settings)}


def words_of_crate(facts, type):
    """The numbers of the words of a type as `facts.rt` has them."""
    found = re.findall(rf"{type}::(\w+)(?:\([_, ]+\))? => (\d+)", facts)
    return {WORDS.get(constant_of(word), constant_of(word)): int(number) for word, number in found}


def fields_of_header(header, name):
    """The fields of a structure of the header, each with its type, in order."""
    body = re.search(rf"^typedef struct nonograde_{name} {{(.*?)}}", header, re.M | re.S)[1]
    lines = re.findall(r"^    (\w+) ([\w, ]+);", body, re.M)
    return [(field, type) for type, fields in lines for field in fields.split(", ")]


def fields_of_crate(source, name):
    """The fields of a structure of the crate, each with its type in C, in order."""
    body = re.search(rf"^pub struct {name} {{(.*?)^}}", source, re.M | re.S)[1]
    types = {"u32": "uint32_t", "usize": "size_t"}
    return [(field, types[type]) for field, type in re.findall(r"^    pub (\w+): (\w+),", body, re.M)]


def number_of_crate(source, name):
    """A number that a source defines."""
    return int(re.search(rf"^pub const {name}: \w+ = ([\d_]+);", source, re.M)[1].replace("_", ""))


def compare_header(results, top):
    """Compares the header with the crate."""
    header = (top / "include/nonograde.h").read_text()
    sources = top / "crates/nonograde_c/src"
    names = ("exports", "faults", "settings", "facts", "replies")
    exports, faults, settings, facts, replies = [(sources / f"{name}.rt").read_text() for name in names]
    results.compare("the calls", "of nonograde.h", calls_of_crate(exports), calls_of_header(header))
    results.compare("the statuses", "of nonograde.h", statuses_of_crate(faults), enum_of_header(header, "status"))
    results.compare("the rules", "of nonograde.h", settings_of_crate(settings, "Pick"), enum_of_header(header, "pick"))
    ways = enum_of_header(header, "closing")
    results.compare("the ways of closing", "of nonograde.h", settings_of_crate(settings, "Closing"), ways)
    results.compare("the formats", "of nonograde.h", settings_of_crate(settings, "Format"), enum_of_header(header, "format"))
    for name, type in (("verdict", "Verdict"), ("grade", "Grade"), ("goal", "GoalWord")):
        results.compare(f"the numbers of {type}", "of nonograde.h", words_of_crate(facts, type), enum_of_header(header, name))
    for name, type, source in (("facts", "Facts", facts), ("reply", "Reply", replies)):
        results.compare(f"the fields of {type}", "of nonograde.h", fields_of_crate(source, type), fields_of_header(header, name))
    limits = (("lane_core", "MAX_GUESSES", r"from 0 to ([\d,]+)"), ("puzzle_text", "MAX_PUZZLE_LEN", r"more than ([\d,]+) bytes"))
    for crate, name, wanted in limits:
        source = "\n".join(file.read_text() for file in sorted((top / f"crates/{crate}/src").glob("*.rt")))
        said = [int(number.replace(",", "")) for number in re.findall(wanted, header)]
        results.compare(name, "in nonograde.h", [number_of_crate(source, name)], said)
