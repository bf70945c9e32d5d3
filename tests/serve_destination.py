"""Checks of what becomes of batches that a backend refuses: report, numbers and backend agree to the span whenever nothing is under way."""

from collector import ALL, asked, body_of, free_port, post, scrape, until, want
from serve_admin import COUNTS
from serve_export import FAST, OK, WAITS, Backend, answer, ids_in, span
from serve_limits import side_by_side

WAVES, CLIENTS, SPANS = 12, 2, 300


def sends_wave(collector, wave, client):
    """The spans of one client in a wave, each of a trace of its own, in requests of 100."""
    first = (wave * CLIENTS + client) * SPANS
    connection = collector.client()
    for number in range(first, first + SPANS, 100):
        connection.send(post(body_of([span(i) for i in range(number, number + 100)])))
        want("the answer", connection.answer()[::2], (200, "{}"))
    connection.close()


def agree(admin, backend, sent):
    """Waits until no span is under way, and compares the numbers with what the backend has. Returns how many it has, and how many not."""
    until("no span is under way", lambda: sum(scrape(admin)[it] for it in (COUNTS[1], COUNTS[8])) == sent, 600)
    numbers = scrape(admin)
    have = [number for body in backend.taken for number in ids_in(body)]
    want("repeats", len(have) - len(set(have)), 0)
    want("handed over, and what the backend has", numbers[COUNTS[1]], len(have))
    want("refused, and what the backend doesn't have", numbers[COUNTS[8]], sent - len(have))
    return len(have), sent - len(have)


def refusing(start, more=""):
    """A collector whose backend refuses every third batch, after waves of load; its lines, its report, its backend."""
    backend, admin = Backend([[answer(400)] if n % 3 == 2 else [OK] for n in range(100000)]), free_port()
    settings = f'admin = "127.0.0.1:{admin}"\nnum_traces = 200000\nqueue_capacity = 65536\nexport_capacity = 65536\nsend_batch_size = 50\nlanes = 2\nshards = 2\n'
    collector = start(FAST + settings + ALL + backend.settings(WAITS) + more)
    for wave in range(WAVES):
        side_by_side(lambda client, wave=wave: sends_wave(collector, wave, client), range(CLIENTS))
        handed, refused = agree(admin, backend, (wave + 1) * CLIENTS * SPANS)
    want("some were refused", refused > 0, True)
    want("the answer to /close", asked(admin, post(b"", "/close"))[::2], (200, "{}"))
    lines, numbers = collector.end()
    want("the report", numbers, [handed + refused, handed, 0, 0, 0, 0, 0, 0, refused])
    return lines, backend


def refuses_each_third(start):
    """A backend that refuses every third batch under load: its spans are counted under 7 at once, the others are handed over, and nothing is printed."""
    want("the lines", refusing(start)[0], [])


def prints_what_is_refused(start):
    """The same with `lines`: each batch is printed once, in the order in which it was sent, also one that is refused."""
    lines, backend = refusing(start, "lines = true\n")
    want("the lines", [f"{line}\n" for line in lines], [body.decode() for _, body in backend.requests])


CHECKS = [refuses_each_third, prints_what_is_refused]
