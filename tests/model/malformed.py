"""Every malformed form of a script, by name (document 01, "The relay listing"). For tests.

A malformed script is a good beginning, one bad line, and perhaps lines after it that must not be read.
"""

N2 = b"N        2\n"
GOOD_POST = b"P        0        2        7      100\n"
GOOD_ROUND = b"R        2        1\n"

# The whole script is malformed from its first line.
MALFORMED_FIRST = {
    "empty script": b"",
    "line end alone": b"\n",
    "first line is a post": GOOD_POST,
    "first line is a round": GOOD_ROUND,
    "size in lower case": b"n        2\n",
    "size without its line end": b"N        2",
    "size with a carriage return": b"N        2\r\n",
    "size line too short": b"N       2\n",
    "size line too long": b"N         2\n",
    "size line with a space after it": b"N        2 \n",
    "size line with two numbers": b"N        2        2\n",
    "size line without a number": b"N\n",
    "size field blank": b"N         \n",
    "size left-justified": b"N2        \n",
    "size with a leading zero": b"N       02\n",
    "size with a plus": b"N       +2\n",
    "size with a tab": b"N\t       2\n",
    "size in another digit": b"N       \xb2\xb2\n",
    "size with a NUL": b"N       \x002\n",
    "size in hexadecimal": b"N      0x2\n",
    "size 0": b"N        0\n",
    "size 17": b"N       17\n",
    "size 999,999,999": b"N999999999\n",
    "size minus 1": b"N       -1\n",
    "size minus zero": b"N       -0\n",
    "space before the letter": b" N       2\n",
}

# Lines that are malformed in a group of two.
MALFORMED_LATER = {
    "second size": N2,
    "second size, another": b"N        3\n",
    "empty line": b"\n",
    "another letter": b"Q        2        1\n",
    "post in lower case": b"p        0        2        7      100\n",
    "round in lower case": b"r        2        1\n",
    "letter above 127": b"\xff        2        1\n",
    "letter NUL": b"\x00        2        1\n",
    "space before the letter": b" R       2        1\n",
    "letter alone, post": b"P\n",
    "letter alone, round": b"R\n",
    "end of a listing": b"END\n",
    "post with three numbers": b"P        0        2        7\n",
    "post with five numbers": b"P        0        2        7      100        0\n",
    "post one byte short": b"P        0        2        7     100\n",
    "post one byte long": b"P        0        2        7       100\n",
    "post with a space after it": b"P        0        2        7      100 \n",
    "post with a carriage return": b"P        0        2        7      100\r\n",
    "post without its line end": b"P        0        2        7      100",
    "station minus 1": b"P       -1        2        7      100\n",
    "kind minus 1": b"P        0       -1        7      100\n",
    "event minus 1": b"P        0        2       -1      100\n",
    "station minus zero": b"P       -0        2        7      100\n",
    "argument minus zero": b"P        0        4        7       -0\n",
    "argument minus with a leading zero": b"P        0        4        7      -05\n",
    "argument with two minuses": b"P        0        4        7      --5\n",
    "argument with a minus after it": b"P        0        4        7       5-\n",
    "argument with a space after its minus": b"P        0        4        7      - 5\n",
    "argument a minus alone": b"P        0        4        7        -\n",
    "argument blank": b"P        0        2        7         \n",
    "argument left-justified": b"P        0        2        7100      \n",
    "argument with a leading zero": b"P        0        2        7     0100\n",
    "argument two zeros": b"P        0        2        7       00\n",
    "argument with a plus": b"P        0        2        7     +100\n",
    "argument with a point": b"P        0        2        7     1.00\n",
    "argument with a comma": b"P        0        2        7    1,000\n",
    "argument with an underscore": b"P        0        2        7    1_000\n",
    "argument with a space inside": b"P        0        2        7      1 0\n",
    "argument with a letter": b"P        0        2        7      10a\n",
    "event blank": b"P        0        2               100\n",
    "event with a leading zero": b"P        0        2       07      100\n",
    "kind blank": b"P        0                 7      100\n",
    "station blank": b"P                 2        7      100\n",
    "round with one mask of two": b"R        2\n",
    "round with three masks of two": b"R        2        1        0\n",
    "round one byte short": b"R        2       1\n",
    "round one byte long": b"R        2         1\n",
    "round with a space after it": b"R        2        1 \n",
    "round with a carriage return": b"R        2        1\r\n",
    "round without its line end": b"R        2        1",
    "mask 65,536": b"R        2    65536\n",
    "mask 999,999,999": b"R999999999        1\n",
    "mask minus 1": b"R        2       -1\n",
    "mask minus zero": b"R        2       -0\n",
    "mask blank": b"R                 1\n",
    "mask with leading zeros": b"R000000002        1\n",
    "mask left-justified": b"R2                1\n",
    "mask with a tab": b"R       \t2        1\n",
    "mask with a space inside": b"R      1 2        1\n",
}


def malformed_scripts():
    """Name, script and the number of rounds done before the bad line, for every malformed form."""
    for name, line in MALFORMED_FIRST.items():
        yield f"first line: {name}", line, 0
        if line.endswith(b"\n"):
            yield f"first line, more after it: {name}", line + N2 + GOOD_ROUND, 0
    for name, line in MALFORMED_LATER.items():
        yield f"second line: {name}", N2 + line, 0
        yield f"after two rounds: {name}", N2 + GOOD_ROUND + GOOD_POST + GOOD_ROUND + line, 2
        if line.endswith(b"\n"):
            yield f"more after it: {name}", N2 + GOOD_ROUND + line + GOOD_POST + GOOD_ROUND, 1
