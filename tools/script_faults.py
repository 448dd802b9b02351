"""The first line of a script that stops the reading, and what is wrong with it in words."""

WIDTH = 9                          # columns of a number
PLACES = 16
LARGEST_MASK = 65_535
LAST_ROUND = 999_999
LONGEST_LINE = 1 + PLACES * WIDTH  # without its line end
COUNTS = {b"N": (1,), b"P": (4,), b"R": None}  # how many numbers a letter may have; None: one for each station


class ScriptReader:
    """Reads a script part by part, up to its first fault. It keeps the line that is not yet whole, and nothing before it."""

    counts = COUNTS         # of another form of scripts, if a class reads one

    def __init__(self):
        self.lines = 0      # the lines read without a fault
        self.rounds = 0
        self.n = None       # the size of the group, once it is read
        self.fault = None   # what is wrong with the line after these
        self.begun = b""    # the line that is not yet whole

    def read(self, part):
        *lines, begun = (self.begun + part).split(b"\n")
        for line in lines:
            self.read_line(line)
            if self.fault:
                return
        self.begun = begun
        if len(begun) > LONGEST_LINE:
            self.fault = words(begun, self.n, self.counts)

    def close(self):
        """The end of the script, after its last part."""
        if self.begun:
            self.fault = "the last line has no line end"
        elif self.lines == 0:
            self.fault = "the script is empty; its first line is N with the number of stations"

    def read_line(self, line):
        numbers = numbers_of(line)
        if numbers is None or not well_formed(line[:1], numbers, self.n, self.counts):
            self.fault = words(line, self.n, self.counts)
        elif line[:1] == b"R" and self.rounds == LAST_ROUND:
            self.fault = f"a round past {LAST_ROUND:,}"
        else:
            self.lines += 1
            self.rounds += line[:1] == b"R"
            if self.n is None:
                self.n = numbers[0]
            self.take(line[:1], numbers)

    def take(self, letter, numbers):
        """A line read without a fault, for those who want more than its faults."""


def numbers_of(line):
    """The numbers after the letter, or None where the line isn't what these numbers are written as."""
    try:
        numbers = tuple(int(line[at:at + WIDTH]) for at in range(1, len(line), WIDTH))
    except ValueError:
        return None
    return numbers if line[1:] == b"%9d" * len(numbers) % numbers else None


def well_formed(letter, numbers, n, counts=COUNTS):
    if n is None:
        return letter == b"N" and len(numbers) in counts[letter] and 1 <= numbers[0] <= PLACES
    if letter == b"N" or letter not in counts or len(numbers) not in (counts[letter] or (n,)):
        return False
    if letter == b"P":
        return min(numbers[:3] + numbers[4:]) >= 0
    return min(numbers) >= 0 and (letter != b"R" or max(numbers) <= LARGEST_MASK)


# In words.

def words(line, n, counts):
    """What is wrong with a malformed line, which is cut off if it is too long; n is None for the first line."""
    letter = line[:1]
    if not line:
        return "the line is empty"
    if line.endswith(b"\r") and len(line) <= LONGEST_LINE:
        return "the line ends with a carriage return (hexadecimal 0D); a line end is the one byte 0A"
    if letter not in counts:
        return f"the line begins with {shown(letter)}; its letter is {one_of([known.decode() for known in counts])}"
    if n is None and letter != b"N":
        return f"the line begins with {shown(letter)}; the first line is N with the number of stations"
    if n is not None and letter == b"N":
        return "a second N; it stands once, on the first line"
    allowed = counts[letter] or (n,)
    if len(line) not in (1 + WIDTH * count for count in allowed):
        length = f"more than {LONGEST_LINE}" if len(line) > LONGEST_LINE else f"{len(line)}"
        numbers = "one number" if allowed == (1,) else f"{one_of(allowed)} numbers"
        columns = one_of([1 + WIDTH * count for count in allowed])
        form = f"{letter.decode()} has {columns}: the letter and {numbers} of nine columns"
        return f"the line has {length} columns where {form}"
    for at in range(len(line) // WIDTH):
        wrong = number_words(line[1 + WIDTH * at:1 + WIDTH * (at + 1)], letter, at)
        if wrong:
            return f"number in columns {2 + WIDTH * at} to {1 + WIDTH * (at + 1)} {wrong}"
    raise ValueError("a well-formed line")


def number_words(field, letter, at):
    """What is wrong with one number of a line, or nothing."""
    text = field.lstrip(b" ")
    strange = [byte for byte in text if byte not in b"0123456789- "]
    if not text:
        return "is blank"
    if strange:
        return f"has {shown(bytes(strange[:1]))} in it, which is no digit"
    if text.endswith(b" "):
        return "is not right-justified: spaces come after it"
    if b" " in text:
        return "has a space inside"
    if b"-" in text[1:] or text == b"-":
        return "has a minus that is not just before its digits"
    if text.startswith(b"-") and (letter, at) != (b"P", 3):
        return "has a minus, which only an argument may have"
    if text == b"-0":
        return "is minus zero"
    if text.removeprefix(b"-").startswith(b"0") and text != b"0":
        return "has a leading zero"
    return limit_words(letter, int(text))


def limit_words(letter, number):
    if letter == b"N" and not 1 <= number <= PLACES:
        return f"is {number}; N is 1 to {PLACES}"
    if letter == b"R" and number > LARGEST_MASK:
        return f"is {number}; a mask is 0 to {LARGEST_MASK:,}"
    return ""


def one_of(choices):
    """One, one or another, one, another or a third."""
    *others, last = map(str, choices)
    return f"{', '.join(others)} or {last}" if others else last


def shown(byte):
    return f"'{byte.decode()}'" if 32 < byte[0] < 127 else f"a byte of hexadecimal {byte[0]:02X}"
