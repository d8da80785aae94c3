"""A paragraph for print: what was watched, what was found, and what can't be said."""

from desk.survey.kinds import ANOTHER, ANSWER_WITHDRAWN, BUFFER_LOST, KINDS, STRANGER_WOKEN
from desk.survey.rates import ANY, CERTAIN, CONVERSATIONS, NO_MONTH, about_told

MONTHS = ("January", "February", "March", "April", "May", "June", "July", "August", "September", "October", "November", "December")
FEW = ("no", "one", "two", "three", "four", "five", "six", "seven", "eight", "nine", "ten", "eleven", "twelve")
HAPPENED = {BUFFER_LOST: "a buffer was lost", ANSWER_WITHDRAWN: "somebody was put to wait for an answer already withdrawn",
            STRANGER_WOKEN: "a stranger was woken", ANOTHER: "an answer was another than it should have been"}
UNSEEN = {BUFFER_LOST: "a lost buffer", ANSWER_WITHDRAWN: "a wait for an answer already withdrawn", STRANGER_WOKEN: "a stranger woken",
          ANOTHER: "any other wrong answer"}
CANNOT = ("What can't be said: how stations fare whose logs nobody sent; what goes wrong behind the first fault of a log, since that may come "
          "of it; and whether a page was printed wrong for it, since a log has no pages. The figures hold if faults come one by one, and "
          "are as likely in one conversation as in another.")


def few(number):
    """A number, a small one in words."""
    return FEW[number] if number < len(FEW) else f"{number:,}"


def count(number, thing):
    """A count with its thing."""
    return f"{few(number)} {thing}{'' if number == 1 else 's'}"


def month_told(month):
    """A month as it is printed."""
    return f"{MONTHS[int(month[5:]) - 1]} {month[:4]}"


def when_told(months):
    """From when to when the logs are, where their names say so."""
    named = sorted(month for month in months if month != NO_MONTH)
    if not named or NO_MONTH in months:
        return ""
    if len(named) == 1:
        return f" of {month_told(named[0])}"
    first, last = month_told(named[0]), month_told(named[-1])
    return f" from {first.removesuffix(last[-5:])} to {last}"


def watched_told(survey):
    """What was watched."""
    watched = survey.all
    shops = sum(of.judged > 0 for of in survey.shops.values())
    of_shops = f" of {count(shops, 'shop')}" if shops > 1 else ""
    months = [month for month, of in survey.months.items() if of.judged]
    return (f"We held {count(watched.judged, 'log')}{of_shops}{when_told(months)} to the proved monitor, answer by answer: "
            f"{count(watched.conversations, 'conversation')} in {count(watched.ticks, 'tick')} of the clock.")


def seen_told(survey):
    """What was found, and how sure that is."""
    watched = survey.all
    strayed, rate = watched.strayed(), watched.rate(ANY, CONVERSATIONS)
    if not strayed:
        return f"No station strayed: of faults of any kind there are {about_told(rate, CONVERSATIONS)} {CERTAIN}."
    kinds = [f"in {few(watched.seen[kind])} {HAPPENED[kind]} ({about_told(watched.rate(kind, CONVERSATIONS))})" for kind in KINDS if watched.seen[kind]]
    said = f"In {count(strayed, 'log')} the station strayed: {about_told(rate, CONVERSATIONS)}, {CERTAIN}."
    return f"{said} {kinds[0][0].upper()}{'; '.join(kinds)[1:]}."


def unseen_told(survey):
    """What wasn't found, and how much of it there may be all the same."""
    watched = survey.all
    unseen = [kind for kind in KINDS if not watched.seen[kind]]
    if not watched.strayed() or not unseen:
        return ""
    names = [UNSEEN[kind] for kind in unseen]
    none = names[0] if len(names) == 1 else f"{', '.join(names[:-1])} or {names[-1]}"
    return f"Not once was there {none}: of {'that' if len(names) == 1 else 'each'} there are {about_told(watched.rate(unseen[0], CONVERSATIONS))}."


def left_told(survey):
    """What isn't counted."""
    unjudged = survey.all.unjudged
    if not unjudged:
        return ""
    return f"{count(unjudged, 'log').capitalize()} could not be judged and {'is' if unjudged == 1 else 'are'} not counted."


def note(survey):
    """The whole paragraph."""
    if not survey.all.conversations:
        return f"In {count(survey.all.judged, 'log')} that could be judged no conversation was begun, so there is nothing to say of faults."
    return " ".join(part for part in (watched_told(survey), seen_told(survey), unseen_told(survey), left_told(survey), CANNOT) if part)
