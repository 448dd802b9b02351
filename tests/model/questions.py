"""A11: by which round a station has received the k-th broadcast of another, by relays alone (document 02)."""

from .forecast import end_rounds, log_refusal, rounds_of
from .links import Links
from .records import PLACES
from .refusals import BAD_LOG, BAD_NUMBER, BAD_QUESTION, BUFFER_SHORT, DONE

MOST_QUESTIONS = 64
NEVER = 2 ** 32 - 1


def received(links, s, r, k):
    """The round by which r has the k-th broadcast of s, or None."""
    starts = [0] + end_rounds(links, s)
    if k > len(starts):
        return None
    start = starts[k - 1]
    return start if r == s else links.arrivals(s, start).get(r)


def good(question, n):
    s, r, k = question
    return s < n and r < n and k >= 1


def call(log, n, questions, answers):
    """The call from C: its refusal, and what log, questions and answers then hold."""
    unchanged = log, questions, answers
    if not 1 <= n <= PLACES:
        return BAD_NUMBER, unchanged
    if log_refusal(log, n):
        return BAD_LOG, unchanged
    page = [questions[at:at + 3] for at in range(0, len(questions), 3)]
    if len(page) > MOST_QUESTIONS or not all(len(one) == 3 and good(one, n) for one in page):
        return BAD_QUESTION, unchanged
    if len(answers) < len(page):
        return BUFFER_SHORT, unchanged
    links = Links(n, rounds_of(log, n))
    rounds = [received(links, *one) for one in page]
    return DONE, (log, questions, [NEVER if one is None else one for one in rounds] + list(answers[len(page):]))
