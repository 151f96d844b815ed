"""Faults that a shell cannot time: interrupts while a file is written, and pipes that are closed or full.

    faults.py PROGRAM TEXT FOLDER ROWS

FOLDER is empty, and is left so. ROWS is the height of a strip. Prints how often the program was run.
"""
import itertools
import os
import random
import signal
import subprocess
import sys
import time

program, text, folder, rows = sys.argv[1:]
out = os.path.join(folder, "o.raw")
size = 4 * 2048 * 2048
strip = 4 * 2048 * int(rows)
draw = [program, "draw", "2048", "2048", out, text]
caught = [signal.SIGHUP, signal.SIGINT, signal.SIGQUIT, signal.SIGTERM, signal.SIGUSR1]
runs = 0


def start(words, ignored=(), **files):
    """Runs the program with the signals as a terminal would leave them, but for those that are ignored."""
    global runs
    runs += 1

    def before():
        for s in caught:
            signal.signal(s, signal.SIG_IGN if s in ignored else signal.SIG_DFL)

    return subprocess.Popen(words, preexec_fn=before, **files)


def is_written(least):
    """Whether the temporary file is there and has so many bytes."""
    try:
        return any(n.startswith(".avarezhu-") and os.path.getsize(os.path.join(folder, n)) >= least for n in os.listdir(folder))
    except FileNotFoundError:
        return False


def await_temporary(process, least=0):
    """Waits until so much of the file is written, or the program has ended."""
    while process.poll() is None and not is_written(least):
        pass


def look(process, number):
    """After an interrupt: nothing is left, or the program was done and the file is whole. Whether it was interrupted."""
    status = process.wait()
    left = os.listdir(folder)
    if status == 0:
        assert left == ["o.raw"] and os.path.getsize(out) == size, left
        os.remove(out)
        return False
    assert status == -number, (status, number)
    assert left == [], left
    return True


def interrupts():
    """Each signal while the temporary file is there, and while there are two strips in it."""
    for number, least in itertools.product(caught, [0, 2 * strip]):
        hits = 0
        for _ in range(40):
            process = start(draw)
            await_temporary(process, least)
            process.send_signal(number)
            hits += look(process, number)
            if hits == 3:
                break
        assert hits > 0, "no run was interrupted by signal %d" % number


def await_removal(process):
    """Waits until the old file is gone."""
    try:
        while process.poll() is None and os.stat(out).st_size == 3:
            pass
    except FileNotFoundError:
        pass


def interrupts_at_any_time():
    """A loop of kills after random times; the name was in use before."""
    chance = random.Random(1024)
    for _ in range(25):
        with open(out, "wb") as old:
            old.write(b"old")
        process = start(draw)
        await_removal(process)
        time.sleep(chance.uniform(0, 0.06))
        process.send_signal(signal.SIGTERM)
        look(process, signal.SIGTERM)


def ignored():
    """A signal that is ignored, as by nohup, stays so."""
    process = start(draw, ignored=[signal.SIGHUP])
    await_temporary(process)
    process.send_signal(signal.SIGHUP)
    assert not look(process, signal.SIGHUP)


def closed_pipe():
    read, write = os.pipe()
    os.close(read)
    for words in [["draw", "300", "200", "-", text], ["check", text], ["--help"]]:
        process = start([program] + words, stdout=write, stderr=subprocess.PIPE)
        said = process.communicate()[1]
        assert process.returncode == 3 and said == b"avarezhu: standard output: Broken pipe\n", (words, process.returncode, said)
    os.close(write)


def closed_later():
    """The reader leaves in the third strip, of a pipe and of a FIFO."""
    fifo = os.path.join(folder, "fifo")
    os.mkfifo(fifo)
    for name, said_name in [("-", "standard output"), (fifo, fifo)]:
        process = start([program, "draw", "--raw", "2048", "2048", name, text], stdout=subprocess.PIPE, stderr=subprocess.PIPE)
        with process.stdout if name == "-" else open(fifo, "rb") as pipe:
            assert len(pipe.read(2 * strip + 1)) == 2 * strip + 1
        said = process.communicate()[1]
        assert process.returncode == 3 and said == b"avarezhu: %s: Broken pipe\n" % said_name.encode(), (name, process.returncode, said)
    os.remove(fifo)


def pipe_that_does_not_wait():
    read, write = os.pipe()
    os.set_blocking(write, False)
    process = start([program, "draw", "--raw", "300", "200", "-", text], stdout=write)
    os.close(write)
    time.sleep(0.1)
    with os.fdopen(read, "rb") as pipe:
        got = pipe.read()
    assert process.wait() == 0 and len(got) == 4 * 300 * 200, (process.returncode, len(got))


interrupts()
interrupts_at_any_time()
ignored()
closed_pipe()
closed_later()
pipe_that_does_not_wait()
assert os.listdir(folder) == []
print(runs)
