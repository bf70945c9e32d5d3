"""Checks of `tsc serve` whose lines go to a file: one that is begun anew by its size or since it was asked for, one whose last line is cut, one that
can't be opened, and a disk that is full for a while."""

import glob
import os
import shutil
import subprocess
import tempfile
import threading
import time

from collector import ALL, ERROR_LINE, ERROR_SPAN, PATIENCE, Client, LeftOut, body_of, comes_to, free_port, post, scrape, spans_of, until, want
from serve_operated import event_of

EACH_AT_ONCE = "decision_wait_ms = 50\ntick_ms = 10\nsend_batch_size = 1\n"


def request(number, long=0):
    """A request of one span, whose name is so long."""
    span = {"traceId": f"{number + 1:032x}", "spanId": f"{number + 1:016x}"}
    return post(body_of([{**span, "name": "x" * long} if long else span]))


def lines_of(paths):
    """The lines of files, in order, each of which ends where a line does."""
    lines = []
    for path in paths:
        with open(path, encoding="utf-8") as file:
            text = file.read()
        want(f"the end of {os.path.basename(path)}", text[-1:] in ("", "\n"), True)
        lines += text.splitlines()
    return lines


def numbers_of(lines):
    """The numbers of the spans of lines, in order."""
    return [int(span["spanId"], 16) for line in lines for span in spans_of([line])]


def ask_in_charge(port, path):
    """Asks at the address for those in charge."""
    client = Client(port)
    client.send(post(b"", path))
    want(f"the answer to {path}", client.answer()[0], 200)
    client.close()


def to_a_file(start):
    """Lines go to the file, and the report alone to standard output. The file is made where there is none, and gets more where there is one."""
    with tempfile.TemporaryDirectory() as folder:
        path = os.path.join(folder, "spans.jsonl")
        for times in (1, 2):
            collector = start(f'output = "{path}"\n' + ALL)
            want("the answer", collector.ask(post(body_of([ERROR_SPAN])))[::2], (200, "{}"))
            lines, numbers = collector.close()
            want("what is printed", (lines, numbers), ([], [1, 1, 0, 0, 0, 0, 0, 0, 0]))
            want("the file", lines_of([path]), [ERROR_LINE] * times)
        want("all files", os.listdir(folder), ["spans.jsonl"])


def behind_a_cut_line(start):
    """Where the last line of the file is cut, the next one begins behind a line feed."""
    with tempfile.TemporaryDirectory() as folder:
        path = os.path.join(folder, "spans.jsonl")
        for before, first in ((ERROR_LINE + "\n" + ERROR_LINE[:40], [ERROR_LINE, ERROR_LINE[:40]]), ("", []), ("\n", [""])):
            with open(path, "w", encoding="utf-8") as file:
                file.write(before)
            collector = start(f'output = "{path}"\n' + ALL)
            collector.ask(post(body_of([ERROR_SPAN])))
            collector.close()
            want("the file", lines_of([path]), first + [ERROR_LINE])


def cannot_be_written(start):
    """A file that can't be opened is named with the system's error, and the program ends at once; nothing is made."""
    with tempfile.TemporaryDirectory() as folder:
        config = os.path.join(folder, "config.toml")
        for path, cause in ((os.path.join(folder, "none", "spans.jsonl"), "No such file"), (folder, "Is a directory")):
            with open(config, "w", encoding="utf-8") as file:
                file.write(f'listen = "127.0.0.1:{free_port()}"\noutput = "{path}"\n' + ALL)
            done = subprocess.run([start.program, "serve", config], stdin=subprocess.DEVNULL, capture_output=True, timeout=PATIENCE, check=False)
            want("the end", (done.returncode, done.stdout), (1, b"tsc: cannot write\n"))
            last = done.stderr.decode().splitlines()[-1]
            want(f"what {last!r} says", ("cannot_write" in last, f'what="{path}"' in last, cause in last), (True, True, True))
        want("all files", os.listdir(folder), ["config.toml"])


def by_its_size(start):
    """A file is put aside at the end of the line by which it has a mebibyte: over all files no line is torn or missing, and no more are kept than wanted."""
    for keep, count in ((7, 60), (2, 60)):
        with tempfile.TemporaryDirectory() as folder:
            path = os.path.join(folder, "spans.jsonl")
            collector = start(f'output = "{path}"\noutput_max_mib = 1\noutput_keep = {keep}\n' + EACH_AT_ONCE + ALL)
            client = collector.client()
            for number in range(count):
                client.send(request(number, 100_000))
                want("the answer", client.answer()[::2], (200, "{}"))
            client.close()
            _, numbers = collector.close()
            want("the report", numbers, [count, count, 0, 0, 0, 0, 0, 0, 0])
            kept = sorted(glob.glob(path + ".*"), key=lambda it: -int(it.rsplit(".", 1)[1]))
            # Ten lines of 100,000 bytes and more have less than a mebibyte, and eleven have more.
            files = [11] * ((count - 1) // 11)
            want("the files put aside", [os.path.basename(it) for it in kept], [f"spans.jsonl.{k}" for k in range(min(keep, len(files)), 0, -1)])
            lines = [len(lines_of([it])) for it in kept + [path]]
            want("the lines of each file", lines, files[-keep:] + [count - 11 * len(files)])
            want("the spans", numbers_of(lines_of(kept + [path])), list(range(count - sum(lines) + 1, count + 1)))


def by_the_size_that_was_there(start):
    """What is in a file at the start counts for its size: it is put aside behind the fifth line, with which it has a mebibyte."""
    with tempfile.TemporaryDirectory() as folder:
        path, before = os.path.join(folder, "spans.jsonl"), 600_000 // (len(ERROR_LINE) + 1)
        with open(path, "w", encoding="utf-8") as file:
            file.write((ERROR_LINE + "\n") * before)
        collector = start(f'output = "{path}"\noutput_max_mib = 1\n' + EACH_AT_ONCE + ALL)
        client = collector.client()
        for number in range(8):
            client.send(request(number, 100_000))
            want("the answer", client.answer()[::2], (200, "{}"))
        client.close()
        want("the report", collector.close()[1], [8, 8, 0, 0, 0, 0, 0, 0, 0])
        want("all files", sorted(os.listdir(folder)), ["spans.jsonl", "spans.jsonl.1"])
        want("the lines of each", [len(lines_of([it])) for it in (path + ".1", path)], [before + 5, 3])


def moved_and_opened_anew(start):
    """The file is moved while lines come, and then it is asked to be opened anew: what comes behind the answer is in the new file, and no line is torn,
    missing or there twice."""
    with tempfile.TemporaryDirectory() as folder:
        path, admin = os.path.join(folder, "spans.jsonl"), free_port()
        collector = start(f'output = "{path}"\nadmin = "127.0.0.1:{admin}"\nqueue_full = "retry"\n' + EACH_AT_ONCE + ALL)
        sent, sending = [], threading.Event()

        def send():
            client = collector.client()
            while not sending.is_set():
                client.send(request(len(sent)))
                # (503 where a disk holds up the output: it is sent again)
                if client.answer()[0] == 200:
                    sent.append(len(sent) + 1)
                time.sleep(0.001)
            client.close()

        sender = threading.Thread(target=send, daemon=True)
        sender.start()
        newest = []
        for turn in range(5):
            until("a line", lambda: os.path.getsize(path) > 0)
            time.sleep(0.1)
            os.rename(path, f"{path}.moved{turn}")
            ask_in_charge(admin, "/reopen")
            # One may be under way.
            newest.append(len(sent) + 1)
            until("the new file", lambda: os.path.exists(path))
        until("a line", lambda: os.path.getsize(path) > 0)
        sending.set()
        sender.join()
        ask_in_charge(admin, "/close")
        _, numbers = collector.end()
        want("the report", numbers[:2], [len(sent)] * 2)
        parts = [f"{path}.moved{turn}" for turn in range(5)] + [path]
        want("the spans", sorted(numbers_of(lines_of(parts))), list(range(1, len(sent) + 1)))
        want("whether each file has lines", [len(lines_of([it])) > 0 for it in parts], [True] * 6)
        late = [part for part, most in zip(parts, newest) if most < max(numbers_of(lines_of([part])))]
        want("the files with lines from behind the answer", late, [])


def asked_where_it_cannot_be(start):
    """Where the path can't be opened anew, it goes on in the file that is open, and tries again behind the next line."""
    with tempfile.TemporaryDirectory() as folder:
        inner, admin = os.path.join(folder, "inner"), free_port()
        os.mkdir(inner)
        path = os.path.join(inner, "spans.jsonl")
        collector = start(f'output = "{path}"\nadmin = "127.0.0.1:{admin}"\n' + EACH_AT_ONCE + ALL)
        os.rename(inner, inner + ".away")
        away = os.path.join(inner + ".away", "spans.jsonl")
        ask_in_charge(admin, "/reopen")
        for number in range(2):
            collector.ask(request(number))
            until("the line", lambda wanted=number + 1: len(lines_of([away])) == wanted)
        os.mkdir(inner)
        collector.ask(request(2))
        until("the line", lambda: os.path.exists(path) and len(lines_of([path])) == 1)
        ask_in_charge(admin, "/close")
        want("the report", collector.end()[1], [3, 3, 0, 0, 0, 0, 0, 0, 0])
        want("the spans", (numbers_of(lines_of([away])), numbers_of(lines_of([path]))), ([1, 2], [3]))


class SmallDisk:
    """A file system of so many kibibytes. Where none can be made (by root alone, as a rule) the check is left out."""

    def __init__(self, kibibytes):
        self.folder = tempfile.TemporaryDirectory()
        command = ["mount", "-t", "tmpfs", "-o", f"size={kibibytes}k", "tmpfs", self.folder.name]
        if not shutil.which("mount"):
            raise LeftOut("there is no mount")
        done = subprocess.run(command, capture_output=True, text=True, check=False)
        if done.returncode != 0:
            raise LeftOut(f"no file system can be mounted ({done.stderr.splitlines()[0]})")

    def __enter__(self):
        return self.folder.name

    def __exit__(self, *_):
        subprocess.run(["umount", "-l", self.folder.name], check=True)
        self.folder.cleanup()


def sends_until_refused(collector, sent):
    """Sends requests, each until it is taken, until twenty were answered 503. Gives how many were taken in all, with those that were before."""
    refused, end = 0, time.monotonic() + PATIENCE
    while time.monotonic() < end and refused < 20:
        status, fields, _ = collector.ask(request(sent, 4_000))
        if status == 200:
            sent += 1
        else:
            want("the status and the wait", (status, "retry-after" in fields), (503, True))
            refused += 1
            time.sleep(0.1)
    want("how many were refused", refused, 20)
    return sent


def full_disk_with_retry(start):
    """A disk that is full, twice: requests are answered 503 meanwhile, and once there is room it goes on without a missing line, and its numbers are
    those of the file. It is said once each time."""
    # What is taken before the disk is full depends on how fast it comes: the disk has room for all of it, once the filler is gone.
    with SmallDisk(8192) as disk:
        path, filler, metrics = os.path.join(disk, "spans.jsonl"), os.path.join(disk, "filler"), free_port()
        settings = f'metrics = "127.0.0.1:{metrics}"\nlog = "text"\noutput_fault = "retry"\nqueue_full = "retry"\nshards = 1\nlanes = 1\nqueue_capacity = 4\nexport_capacity = 4\n'
        collector = start(f'output = "{path}"\n' + settings + EACH_AT_ONCE + ALL)
        sent = 0
        for turn in (1, 2):
            with open(filler, "wb") as file:
                file.write(bytes((8192 - 56) * 1024 - (os.path.getsize(path) + 4095) // 4096 * 4096))
            sent = sends_until_refused(collector, sent)
            # It is looked twice a second at what is to be said, also at what isn't.
            until("what is said", lambda wanted=turn: collector.says().count(" output_failing ") == wanted)
            time.sleep(1.5)
            os.remove(filler)
            for _ in range(10):
                until("an answer 200", lambda number=sent: collector.ask(request(number, 4_000))[0] == 200)
                sent += 1
            until("what is said", lambda wanted=turn: collector.says().count(" output_back ") == wanted)
            time.sleep(1.5)
        told = lambda *names: [numbers[name] for numbers in [scrape(metrics)] for name in names]
        comes_to("the lines and the bytes", lambda: told("tsc_lines_total", "tsc_output_bytes_total"), [sent, os.path.getsize(path)])
        lines, numbers = collector.close()
        want("what is printed", lines, [])
        want("the spans", numbers_of(lines_of([path])), list(range(1, sent + 1)))
        want("the report", (numbers[1], numbers[8]), (sent, 0))
        events = [event_of("text", line) for line in collector.said.splitlines()]
        told = [(name, fields["what"]) for name, fields in events if name.startswith("output_")]
        want("what is said", told, [("output_failing", path), ("output_back", path)] * 2)
        want("why", {fields["cause"].split(" (")[0] for name, fields in events if name == "output_failing"}, {"No space left on device"})


def full_disk_at_the_end(start):
    """A disk that stays full: once it is told to stop, a write is tried for ten seconds more (ninety at most), and then its spans are counted under
    reason 7."""
    with SmallDisk(64) as disk:
        path = os.path.join(disk, "spans.jsonl")
        with open(os.path.join(disk, "filler"), "wb") as file:
            file.write(bytes(60 * 1024))
        collector = start(f'log = "text"\noutput = "{path}"\noutput_fault = "retry"\n' + EACH_AT_ONCE + ALL)
        for number in range(4):
            collector.ask(request(number, 4_000))
        until("what is said", lambda: " output_failing " in collector.says())
        began = time.monotonic()
        collector.ask(post(b"", "/close"))
        collector.process.wait(timeout=PATIENCE)
        passed = time.monotonic() - began
        want("the status", collector.process.returncode, 1)
        want(f"whether {passed:.1f} seconds are ten and a little", 9.5 < passed < 90, True)
        with open(path, encoding="utf-8") as file:
            want("whether a line was written whole", "\n" in file.read(), False)


CHECKS = [to_a_file, behind_a_cut_line, cannot_be_written, by_its_size, by_the_size_that_was_there, moved_and_opened_anew, asked_where_it_cannot_be]
CHECKS += [full_disk_with_retry, full_disk_at_the_end]
