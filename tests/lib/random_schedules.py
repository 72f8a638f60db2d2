"""Random schedules, and random runs of them."""
import schedules
from schedules import Contact, Overlay, Programme, Schedule, Start, Window


def random_window(chance, around):
    """A window near a time of the day, or anywhere; seldom an empty one."""
    if chance.random() < 0.7:
        begin = (around + chance.randint(-20, 20)) % 86_400
        return Window(begin, (begin + chance.randint(1, 30)) % 86_400)
    return Window(chance.randrange(86_400), chance.randrange(86_400))


def random_condition(chance, around):
    """Up to three alternatives of up to three tests."""
    def test():
        if chance.random() < 0.6:
            return Contact(chance.randrange(4), chance.random() < 0.6)
        return random_window(chance, around)

    return tuple(tuple(test() for _test in range(chance.choice((1, 1, 2, 3)))) for _tests in range(chance.choice((1, 1, 1, 2, 3))))


def random_schedule(chance, around):
    """One to four overlays, each with a programme of its own, a rate of one of the items, or both."""
    items = tuple(Programme(number, 100 * number, 96, f"C2{number:02X}") for number in range(1, 3))
    overlays = []
    for number in range(chance.choice((1, 1, 2, 2, 3, 4))):
        added = (Programme(10 + number, 300 + 60 * number, 64, f"C3{number:02X}"),) if chance.random() < 0.6 else ()
        rates = ((chance.choice((1, 2)), chance.choice((64, 96, 128))),) if not added or chance.random() < 0.3 else ()
        overlays.append(Overlay(f"o{number}", random_condition(chance, around), added, rates))
    return Schedule(items, tuple(overlays), chance.choice((1, 1, 1, 2, 3, 4)), chance.choice((24, 30, 100, 240)))


def random_run(chance):
    """A schedule, a start near its windows, contacts, and a number of frames."""
    around = chance.choice((0, 5, 21_600, 43_200, 86_390))
    schedule = random_schedule(chance, around)
    day = (schedules.frame_of(around) + chance.randint(-1500, 600) - schedule.notice) % schedules.DAY
    closed = frozenset(contact for contact in range(4) if chance.random() < 0.3)
    frames = chance.randint(200, 3000)
    events = [(chance.randrange(frames), chance.randrange(5), chance.random() < 0.5) for _event in range(chance.randint(0, 12))]
    # Of two changes of a contact before one frame, the later one counts; one is left.
    events = list({(frame, contact): (frame, contact, closed) for frame, contact, closed in events}.values())
    return schedule, Start(chance.randrange(schedules.COUNTS), day, closed), events, frames
