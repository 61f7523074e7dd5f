"""The program's two streams, as an attacker or a bad day would have them: slow, cut, closed, failing, endless, full.

The program gives no exit status: it ends with 0 whenever nothing kills it, so only its text can say what became of a file.
What is tested: it always ends; a file that did not arrive whole is refused with 43; the answer is whole or can be seen to be cut; ./fit turns each of these
into an exit status."""

import fcntl
import os
import resource
import shutil
import signal
import socket
import subprocess
import threading
import time
import unittest

import answer as answers
from machine import PROGRAM
from support import FIT, ROOT, Case

DATA = os.path.join(ROOT, "crates", "vectors", "data")
MALFORMED = b"refused 43 0 0\n"
LARGEST = 8300  # bytes of the largest well-formed file
STACK = 96 << 10  # bytes of stack with which the program runs, what the system itself puts there included


def stored(name):
    """A stored file and its answer."""
    pair = []
    for end in ("house", "answer"):
        with open(os.path.join(DATA, f"{name}.{end}"), "rb") as file:
            pair.append(file.read())
    return pair


ACCEPTED, ACCEPTED_ANSWER = stored("last-equal-pivot-354")
MOST, MOST_ANSWER = stored("most-256-records")


@unittest.skipUnless(os.access(PROGRAM, os.X_OK), "the program is not built (./fit builds it)")
class Streams(Case):
    def start(self, **streams):
        process = subprocess.Popen([PROGRAM], **{"stdin": subprocess.DEVNULL, "stdout": subprocess.PIPE, **streams})
        self.addCleanup(process.wait)
        self.addCleanup(process.kill)
        if process.stdout:
            self.addCleanup(process.stdout.close)
        return process

    def end(self, process):
        """What it wrote and its status; it must end."""
        out, _ = process.communicate(timeout=60)
        return out, process.returncode

    def answer(self, data=b"", **streams):
        if data:
            streams["stdin"] = subprocess.PIPE
        process = self.start(**streams)
        out, _ = process.communicate(data or None, timeout=60)
        return out, process.returncode

    def packets(self, pieces, closing=True):
        """The pieces as standard input, one read each: a socket that keeps the bounds of what is sent."""
        ours, its = socket.socketpair(socket.AF_UNIX, socket.SOCK_SEQPACKET)
        process = self.start(stdin=its)
        its.close()
        self.addCleanup(ours.close)

        def send():
            for piece in pieces:
                ours.sendall(piece)
            if closing:
                ours.close()

        sender = threading.Thread(target=send)
        sender.start()
        done = self.end(process)
        sender.join()
        return done

    # ---- input

    def test_a_byte_at_a_time(self):
        self.assertEqual(self.packets([bytes([b]) for b in ACCEPTED]), (ACCEPTED_ANSWER, 0))
        self.assertEqual(self.packets([bytes([b]) for b in MOST]), (MOST_ANSWER, 0))

    def test_pieces_of_every_size(self):
        for size in (2, 3, 7, 255, 4095, 4096):  # it asks for 4,096 at a time, and a socket drops what is beyond
            pieces = [MOST[i : i + size] for i in range(0, len(MOST), size)]
            self.assertEqual(self.packets(pieces), (MOST_ANSWER, 0), size)
        first = [ACCEPTED[:1], ACCEPTED[1:]]
        self.assertEqual(self.packets(first), (ACCEPTED_ANSWER, 0))

    def test_pauses_and_a_stop(self):
        process = self.start(stdin=subprocess.PIPE)
        for i in range(0, len(ACCEPTED), 100):
            process.stdin.write(ACCEPTED[i : i + 100])
            process.stdin.flush()
            process.send_signal(signal.SIGSTOP)
            time.sleep(0.02)
            process.send_signal(signal.SIGCONT)
            time.sleep(0.02)
        self.assertEqual(self.end(process), (ACCEPTED_ANSWER, 0))

    def test_a_file_cut_anywhere_is_refused(self):
        for n in range(len(ACCEPTED)):
            self.assertEqual(self.answer(ACCEPTED[:n]), (MALFORMED, 0), n)
        for n in (LARGEST - 1, LARGEST - 32, 4095, 4096, 4097):
            self.assertEqual(self.answer(MOST[:n]), (MALFORMED, 0), n)

    def test_longer_than_the_largest(self):
        self.assertEqual(len(MOST), LARGEST)
        self.assertEqual(self.answer(MOST), (MOST_ANSWER, 0))
        for more in (b"\0", b"\0\0", MOST, bytes(1 << 20)):
            name = os.path.join(self.folder, self.put("long", MOST + more))
            with open(name, "rb") as file:
                self.assertEqual(self.answer(stdin=file), (MALFORMED, 0), len(more))
                # It reads one byte beyond the largest file and no further.
                self.assertEqual(os.lseek(file.fileno(), 0, os.SEEK_CUR), LARGEST + 1, len(more))

    def test_endless(self):
        for name in ("/dev/zero", "/dev/urandom"):
            with open(name, "rb") as file:
                self.assertEqual(self.answer(stdin=file), (MALFORMED, 0), name)

    def test_no_input(self):
        self.assertEqual(self.answer(), (MALFORMED, 0))
        self.assertEqual(self.answer(preexec_fn=lambda: os.close(0)), (MALFORMED, 0))

    def test_input_that_cannot_be_read(self):
        folder = os.open(self.folder, os.O_RDONLY)
        self.addCleanup(os.close, folder)
        self.assertRaises(IsADirectoryError, os.read, folder, 1)
        self.assertEqual(self.answer(stdin=folder), (MALFORMED, 0))
        writing = os.open(os.path.join(self.folder, self.put("day.house", ACCEPTED)), os.O_WRONLY)
        self.addCleanup(os.close, writing)
        self.assertEqual(self.answer(stdin=writing), (MALFORMED, 0))

    def test_a_read_that_fails_is_the_end(self):
        """A pipe that does not wait: where no byte is there yet the read fails. What came before is taken as the file."""
        for data, answer in ((b"", MALFORMED), (ACCEPTED[:-1], MALFORMED), (ACCEPTED, ACCEPTED_ANSWER)):
            its, ours = os.pipe()
            fcntl.fcntl(its, fcntl.F_SETFL, os.O_NONBLOCK)
            os.write(ours, data)
            process = self.start(stdin=its)
            self.assertEqual(self.end(process), (answer, 0), len(data))
            os.close(its)
            os.close(ours)

    # ---- output

    def test_a_slow_reader(self):
        process = self.start(stdin=subprocess.PIPE)
        fcntl.fcntl(process.stdout.fileno(), 1031, 4096)  # F_SETPIPE_SZ: less room than the answer takes
        self.assertGreater(len(MOST_ANSWER), 4096)
        process.stdin.write(MOST)
        process.stdin.close()
        process.stdin = None
        got = b""
        while piece := os.read(process.stdout.fileno(), 100):
            got += piece
        self.assertEqual((got, process.wait(60)), (MOST_ANSWER, 0))

    def test_output_closed_or_full(self):
        """Nothing is written, and the status is 0: only the missing text says so."""
        name = os.path.join(self.folder, self.put("day.house", ACCEPTED))
        with open(name, "rb") as file, open("/dev/full", "wb") as full:
            self.assertRaises(OSError, os.write, full.fileno(), b"x")
            self.assertEqual(self.answer(stdin=file, stdout=full), (None, 0))
        with open(name, "rb") as file:
            self.assertEqual(self.answer(stdin=file, preexec_fn=lambda: os.close(1)), (b"", 0))
        with open(name, "rb") as file, open(os.devnull, "rb") as reading:
            self.assertEqual(self.answer(stdin=file, stdout=reading), (None, 0))

    def test_a_reader_that_left(self):
        """The program ends by itself: as every program of Rattle's it ignores SIGPIPE, whatever was set before."""
        for ignored, status in ((False, 0), (True, 0)):
            its, ours = os.pipe()
            os.close(its)
            handler = signal.SIG_IGN if ignored else signal.SIG_DFL
            process = self.start(stdin=subprocess.PIPE, stdout=ours, preexec_fn=lambda h=handler: signal.signal(signal.SIGPIPE, h))
            os.close(ours)
            process.communicate(ACCEPTED, timeout=60)
            self.assertEqual(process.returncode, status)

    def written(self, room, data):
        """The answer in a file that may grow to `room` bytes, as on a disk that fills."""
        name = os.path.join(self.folder, "out")

        def limit():
            signal.signal(signal.SIGXFSZ, signal.SIG_IGN)
            resource.setrlimit(resource.RLIMIT_FSIZE, (room, room))

        with open(name, "wb") as file:
            self.assertEqual(self.answer(data, stdout=file, preexec_fn=limit), (None, 0))
        with open(name, "rb") as file:
            return file.read()

    def test_a_disk_that_fills(self):
        """What stands there is the front of the answer, and it can be told from an answer."""
        for name in ("last-equal-pivot-354", "03-u64-max", "00-paper-example-nine-copies", "06-first-pass-no-pivot"):
            data, answer = stored(name)
            rooms = range(len(answer)) if len(answer) < 100 else [*range(0, len(answer), 29), len(answer) - 1]
            for room in rooms:
                got = self.written(room, data)
                self.assertEqual(got, answer[:room], (name, room))
            self.assertEqual(self.written(len(answer), data), answer)

    def test_no_front_of_an_answer_is_an_answer(self):
        for name in sorted(n for n in os.listdir(DATA) if n.endswith(".answer")):
            with open(os.path.join(DATA, name), encoding="ascii") as file:
                text = file.read()
            answers.parse(text)
            for n in range(len(text)):
                with self.assertRaises(answers.NotAnAnswer, msg=f"{name}, {n} bytes"):
                    answers.parse(text[:n])

    # ---- around it

    def test_a_small_stack(self):
        # An Arm machine's emulator does not go by the system's limit but by a variable, and gives the program 128 KiB at least.
        env = {"QEMU_STACK_SIZE": str(STACK)}
        got = self.answer(MOST, env=env, preexec_fn=lambda: resource.setrlimit(resource.RLIMIT_STACK, (STACK, STACK)))
        self.assertEqual(got, (MOST_ANSWER, 0))

    def test_words_and_surroundings_change_nothing(self):
        for words, env in ((["--help"], {}), (["x" * 100000], None), ([], {"LC_ALL": "tr_TR.UTF-8", "MALLOC_PERTURB_": "77"})):
            done = subprocess.run([PROGRAM, *words], input=ACCEPTED, capture_output=True, env=env, check=False, timeout=60)
            self.assertEqual((done.stdout, done.stderr, done.returncode), (ACCEPTED_ANSWER, b"", 0))


@unittest.skipUnless(os.access(PROGRAM, os.X_OK), "the program is not built (./fit builds it)")
class Wrapper(Case):
    """./fit: each of these has an exit status and a word."""

    def setUp(self):
        super().setUp()
        self.root = os.path.join(self.folder, "repository")
        os.makedirs(os.path.join(self.root, "crates"))
        os.makedirs(os.path.join(self.root, "target", "bin"))
        self.put("repository/crates.txt", "fit:\n")
        os.mkdir(os.path.join(self.root, "tools"))
        shutil.copy(FIT, self.root)
        shutil.copy(os.path.join(ROOT, "tools", "library"), os.path.join(self.root, "tools"))
        shutil.copy(PROGRAM, os.path.join(self.root, "target", "bin", "fit"))
        self.put("repository/target/fit.built", "")
        self.put("day.house", ACCEPTED)

    def fit(self, *args, **streams):
        streams = {"stdin": subprocess.DEVNULL, "stdout": subprocess.PIPE, "stderr": subprocess.PIPE, **streams}
        # no rt: what stands there is run as it is
        done = subprocess.run(["repository/fit", *args], cwd=self.folder, env={"PATH": "/usr/bin:/bin"}, check=False, timeout=60, **streams)
        return done.returncode, done.stdout, done.stderr

    def test_whole(self):
        self.assertEqual(self.fit("day.house"), (0, ACCEPTED_ANSWER, b""))

    def test_output_full_or_closed(self):
        with open("/dev/full", "wb") as full:
            status, _, message = self.fit("day.house", stdout=full)
        self.assertEqual(status, 1, message)
        self.assertIn(b"fit: the answer could not be written\n", message)
        status, _, message = self.fit("day.house", preexec_fn=lambda: os.close(1))
        self.assertEqual(status, 1, message)

    def test_input_closed_or_a_folder(self):
        status, out, _ = self.fit(preexec_fn=lambda: os.close(0))
        self.assertEqual((status, out), (2, MALFORMED))
        self.assertEqual(self.fit(".")[:2], (1, b""))

    def test_a_program_that_is_killed(self):
        self.put("repository/target/bin/fit", "#!/bin/sh\necho read 9 kept 9\nkill -9 $$\n")
        status, out, message = self.fit("day.house")
        self.assertEqual((status, out), (1, b""))
        self.assertIn(b"fit: the program stopped before its answer was complete\n", message)


