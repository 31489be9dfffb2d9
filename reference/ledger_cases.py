"""The ledger and the system, case by case: what happens where files, streams, disks and other programs do what they seldom do.

`tools/torture --cases` runs them. A case is a function below with a sentence of what it tries. It runs the ledger in a folder of its own, and
compares the answers, the journal's bytes and what was acknowledged with the reference (ledger.py). It raises Wrong with what differs, or Skip where
the machine doesn't permit it. Some need root, for a mount or another user; strace makes calls of the system fail and shows their order.

Three programs that a comparison of whole runs alone might pass, and the cases that catch each:
- every answer is `done`: `filter`, `kept changes` and every other case that compares answers;
- an answer is written before its line is appended, and a failure is ignored: `order of the calls`, `failing write`, `failing fdatasync`;
- the order is right, and a failure is ignored: `failing write`, `failing fdatasync`, `full disk`, `file size limit`.

Programs that would treat a first stretch (paper 02, ask 3) wrongly, and the cases that catch each:
- a journal is replayed under the new rule: `old journal with the retired role`; under the old one to its end: `retired role behind its end`;
- who types behind a journal without the line `role-retired` is under the old rule: `retired role that is typed`;
- the line is appended when the journal is opened: `old journal that is only asked`; on its own: `order of the first addition`; in each run: `old
  journal with the retired role`.

Programs that would treat a deletion (paper 02, ask 4) wrongly, and the cases that catch each:
- an accepted one is not kept, or a refused one is: `kept deletions`; it is answered though it could not be kept: `failing deletion`;
- the status or the call is lost with the next start: `kept deletions`, `journal with deletions`, `deletion killed`;
- a deletion that was refused with 13 leaves the status: `deletion that is refused at first`;
- it is taken for a question: `deletion and read`, `order of a deletion`.

A program that would count calls (paper 02, ask 6) for all together, or lose a count with the next start, is caught by `counts by participant`; one
that would lose a reference, or keep a question, by `references`.
"""
import contextlib
import fcntl
import os
import re
import resource
import select
import shutil
import signal
import stat
import subprocess
import sys
import tempfile
import time

sys.dont_write_bytecode = True

import accounts
import ledger

PATIENCE = 20        # seconds without an answer or an end
SHORT = 5            # the same where the ledger has to stop
NOBODY = 65534
CASES = []
RETIRED = b'role-retired'                           # the line that ends a journal's first stretch


class Wrong(Exception):
    """What was found is not what is due."""


class Skip(Exception):
    """What a case needs is not permitted here."""


class Model(ledger.Kept):
    """The reference's kept book, with the lines of its journal."""

    def __init__(self, journal=b'', **ways):
        super().__init__(**ways)
        self.lines = []
        self.replay(journal)

    def keep(self, lines):
        self.lines += lines

    def changes(self):
        """How many of the lines are changes: all but the one that ends the first stretch."""
        return len(self.lines) - self.lines.count(RETIRED)

    def people(self):
        return self.ledger.book.people

    def height(self, call):
        """How many lines the answer to a call has."""
        return 1 + self.ledger.make(call).count('\n') if call[0] in ('report', 'file') else 1

    def appended(self):
        return b''.join(line + b'\n' for line in self.lines)


def case(function):
    """Enters a function among the cases."""
    CASES.append((function.__name__.replace('_', ' '), function))
    return function


def cut_down(value):
    return value if not isinstance(value, bytes) or len(value) < 400 else value[:200] + b' .. ' + value[-150:]


def same(what, got, due):
    """Compares what was found with what is due; of long bytes it shows where they part."""
    if got == due:
        return
    if isinstance(got, tuple) and isinstance(due, tuple):       # standard output and standard error, say
        for n, (one, other) in enumerate(zip(got, due), 1):
            same(f'{what}, part {n}', one, other)
    if isinstance(got, bytes) and isinstance(due, bytes) and len(got) + len(due) > 600:
        at = len(os.path.commonprefix([got, due]))
        at = due.rfind(b'\n', 0, at) + 1
        raise Wrong(f'{what}, {len(got)} bytes, from byte {at} on {got[at:at + 150]}, due are {len(due)}, there {due[at:at + 150]}')
    raise Wrong(f'{what}: {cut_down(got)}, due is {cut_down(due)}')


def holds(what, whether, got=None):
    if not whether:
        raise Wrong(what if got is None else f'{what}: {cut_down(got)}')


# ---- calls

SPECIAL = b'special 3 126 4 0 3 3253 4048 4723 3 0 0 0 1 1000000 1 1000000 1 0 1 0'
CALLS = b'''calls
statement 0
''' + SPECIAL + b'''
fresh 2021-02-01       # the first change, behind questions
admit 0 supplier
admit 01 trader

report
# a comment
lodge 0 0 cash 02000000
lodge 1 0 letter 500 2021-02-01 2021-06-30
release 1 0 9
settle 0 2020-12 2500000 0 0 0 -10
statement 0
frob
fresh 0
admit 1 1
admit 1 trader
admit 2 self-supplied
role-retired
role-retired 1
lodge 0 1 cash 500000
release 0 1 10
settle 0 2020-10 1 2 3 4 5 6
batch 0b0001000C0000002A00000001050000000000000000000000000000000000000000000000000000000000000000000000000000007F
batch 0b0001000c0000002a0000000105ff000000000000000000000000000000000000000000000000000000000000000000000000000000
batch 0a0001000C0000002A0000000105fF000000000000000000000000000000000000000000000000000000000000000000000000000000
batch 0b000
special 0 0 0 0 0 0 0
delete 0
advance 2021-02-12 100
annual 0
statement 0
statement 1
calls
report
advance 2021-09-01 1000
delete 64
delete
settle 0 2021-07 2600000 0 0 0 0
delete 00
delete 0
annual 0
delete 1 # its minimum is above it
statement 0
calls
'''


def joined(lines):
    return b''.join(line + b'\n' for line in lines)


def settled(numbers):
    """Changes that are all accepted, each with a line and an answer of its own."""
    return joined(b'settle 0 2020-10 %d 0 0 0 0' % n for n in numbers)


def month_file(month, *parts):
    """The bytes of a batch: participants, each with its figures."""
    data = [p.to_bytes(1, 'little') + len(figures).to_bytes(1, 'little') + b''.join(x.to_bytes(8, 'little', signed=True) for x in figures)
            for p, figures in parts]
    numbers, at = [], 4 + 8 * len(parts)
    for part in data:
        numbers += [at, len(part)]
        at += len(part)
    return month.to_bytes(2, 'little') + len(parts).to_bytes(2, 'little') + b''.join(n.to_bytes(4, 'little') for n in numbers) + b''.join(data)


def batch_line(data):
    return b'batch ' + data.hex().encode() + b'\n'


def many(count):
    """A fresh book and so many settlements."""
    return joined([b'fresh 2021-02-01', b'admit 0 producer']) + settled(range(count))


# A journal as it was kept while role 1 was admitted: two have it, of whom one has paid its minimum, on 1 February 2021, month 13. And what follows.
OLD_BOOK = b'fresh 366\nadmit 0 1\nadmit 1 1\nadmit 2 3\nlodge 1 0 cash 2000000\nadvance 397 100\n'
LATER = b'''statement 0
settle 0 2020-12 2000001 0 0 0 0
settle 1 2020-12 2000000 0 0 0 0
advance 2021-09-01 1000
annual 0
annual 1
admit 0 1
admit 9 1
advance 2021-10-01 100
statement 0
statement 1
calls
report
'''


# A book on 31 August 2021, month 19, whose participant 1 has four open calls, and a total of May above them. And what may follow.
LEAVING_BOOK = joined([b'role-retired', b'fresh 2021-08-31', b'admit 0 supplier', b'admit 1 producer', b'admit 2 producer', b'lodge 0 0 cash 2000000',
                       b'settle 0 2021-05 2500000 0 0 0 0', b'settle 2 2021-05 700 0 0 0 0'] +
                      [b'settle 1 2021-06 %d 0 0 0 0' % n for n in (100, 200, 300, 400)] + [b'settle 1 2021-05 401 0 0 0 0'])
LEAVING = b'''delete 1
delete 2
delete 2
annual 2
advance 2021-09-01 1
delete 1
annual 0
annual 1
annual 2
delete 9
delete 64
delete 0 0
advance 2021-09-11 100
delete 01
settle 0 2021-07 2600000 0 0 0 0
advance 2021-09-21 100
delete\t000 \r# outlives 1 October
annual 0
calls
report
advance 2021-10-02 100
delete 2
statement 0
statement 1
statement 2
settle 0 2021-08 2600001 0 0 0 0
settle 2 2021-08 701 0 0 0 0
advance 2022-09-01 1000
annual 0
delete 1
calls
report
'''


# ---- the ledger in a folder

class Place:
    """A folder of a case, the journal there, and runs of the ledger on it."""

    def __init__(self, command, folder):
        self.command, self.folder = command, folder
        self.path = os.path.join(folder, 'book.journal')
        self.lock = self.path + '.lock'

    def at(self, name):
        return os.path.join(self.folder, name)

    def put(self, data, name='book.journal'):
        with open(self.at(name), 'wb') as file:
            file.write(data)

    def got(self, name='book.journal'):
        """The bytes of a file, or None where there is none."""
        if not os.path.lexists(self.at(name)):
            return None
        with open(self.at(name), 'rb') as file:
            return file.read()

    def names(self):
        return sorted(os.listdir(self.folder))

    def run(self, *words, data=b'', before=(), **ways):
        """A run to its end: what it wrote to standard output and to standard error. The words before are a program that starts it."""
        ways = {'stdout': subprocess.PIPE, 'cwd': self.folder, **ways}
        try:
            done = subprocess.run([*before, self.command, *words], **({'input': data} if 'stdin' not in ways else {}), stderr=subprocess.PIPE,
                                  timeout=PATIENCE, **ways)
        except subprocess.TimeoutExpired:
            raise Wrong(f'no end after {PATIENCE} seconds')
        if done.returncode < 0:
            raise Wrong(f'ended by signal {-done.returncode}')
        return done.stdout, done.stderr

    def keep(self, data, *words, **ways):
        return self.run(self.path, *words, data=data, **ways)

    def talk(self, *words, **ways):
        return Talk([self.command, *(words or (self.path,))], cwd=self.folder, **ways)


class Talk:
    """A run of the ledger that is given lines one after the other."""

    def __init__(self, words, **ways):
        self.process = subprocess.Popen(words, stdin=subprocess.PIPE, stdout=subprocess.PIPE, stderr=subprocess.PIPE, **ways)
        self.out = b''

    def __enter__(self):
        return self

    def __exit__(self, *what):
        if self.process.poll() is None:
            self.process.kill()
        for stream in (self.process.stdin, self.process.stdout, self.process.stderr):
            with contextlib.suppress(BrokenPipeError):
                stream.close()
        self.process.wait()

    def send(self, data):
        with contextlib.suppress(BrokenPipeError):
            self.process.stdin.write(data)
            self.process.stdin.flush()

    def hear(self, lines, patience=PATIENCE):
        """Reads until so many lines more have come, or the end. Gives what was read."""
        heard, stream = b'', self.process.stdout.fileno()
        while heard.count(b'\n') < lines:
            if not select.select([stream], [], [], patience)[0]:
                raise Wrong(f'neither an answer nor an end for {patience} seconds, after {cut_down(heard)}')
            piece = os.read(stream, 65536)
            if not piece:
                break
            heard += piece
        self.out += heard
        return heard

    def ask(self, data, model):
        """Sends lines and compares the answers with the model's."""
        due = ledger.answers(data, model)
        self.send(data)
        same(f'the answers to {cut_down(data)}', self.hear(due.count(b'\n')), due)

    def stops(self, data):
        """Sends lines at which the ledger has to stop, though its input goes on. Gives what it answered and said."""
        self.send(data)
        return self.rest(SHORT)

    def rest(self, patience=PATIENCE):
        heard = self.hear(float('inf'), patience)
        said = self.process.stderr.read()
        try:
            self.process.wait(PATIENCE)
        except subprocess.TimeoutExpired:
            raise Wrong('it closed its streams and does not end')
        return heard, said

    def end(self):
        """Ends the input. Gives what is still answered, and what was said."""
        with contextlib.suppress(BrokenPipeError):
            self.process.stdin.close()
        return self.rest()


# ---- what is due

def due(data, journal=b'', bail=False, end=False):
    """The answers to an input and the journal that is left, by the reference, of a journal whose lines are all complete."""
    model = Model(journal)
    model.begin(bail)
    out = ledger.answers(data, model)
    return out + (ledger.ended(model) if end else b''), journal + model.appended()


def filtered(data, bail=False, end=False):
    to = ledger.Filter()
    to.begin(bail)
    return ledger.answers(data, to) + (ledger.ended(to) if end else b'')


def keeps(place, data, *words, journal=None, bail=False, end=False, said=b'', **ways):
    """A run that goes well: answers, journal and messages are as due, and no lock is left."""
    if journal is not None:
        place.put(journal)
    out, heard = place.keep(data, *words, **ways)
    answers, left = due(data, journal or b'', bail, end)
    same('on standard error', heard, said)
    same('the answers', out, answers)
    same('the journal', place.got(), left)
    same('the lock that is left', place.got('book.journal.lock'), None)


def refuses(place, *words, data=b'admit 1 2\ncalls\n', texts=(), **ways):
    """A run that has to stop at its start: nothing answered, nothing made or changed, and a message that has these texts. Gives the message."""
    before = snapshot(place.folder)
    out, said = place.run(*words, data=data, **ways)
    same('the answers', out, b'')
    same('the files', snapshot(place.folder), before)
    for text in (b'ledger: ',) + tuple(texts):
        holds(f'no {text} on standard error', text in said, said)
    return said


def snapshot(folder):
    """Names, kinds, modes and bytes of all that is in a folder."""
    found = {}
    for name in sorted(os.listdir(folder)):
        path = os.path.join(folder, name)
        about = os.lstat(path)
        found[name] = (oct(about.st_mode), b'')
        if stat.S_ISREG(about.st_mode) and os.access(path, os.R_OK):
            with open(path, 'rb') as file:
                found[name] = (oct(about.st_mode), file.read())
    return found


def acknowledged(model, data, out):
    """Has the model answer as many lines of an input as were answered, and compares. Its lines are those acknowledged. Gives how many were not."""
    lines = data.split(b'\n')[:-1]
    for n, line in enumerate(lines):
        kept, answer = len(model.lines), model.answer(line)
        text = b'' if answer is None else answer.encode() + b'\n'
        if text and not out:
            del model.lines[kept:]
            return len(lines) - n
        if not out.startswith(text):
            raise Wrong(f'{line}: {cut_down(out)}, due is {text}')
        out = out[len(text):]
    same('the answers behind the last', out, b'')
    return 0


def failed(place, journal, data, out, said, acked=None):
    """After a failure: a message, no answer to the call that was not kept nor behind it, and a journal of the acknowledged changes."""
    model = Model(journal)
    left = acknowledged(model, data, out)
    same('the journal', place.got(), journal + model.appended())
    holds('every line was answered in spite of the failure', left)
    if acked is not None:
        same('the acknowledged changes', model.changes(), acked)
    holds('no message on standard error', said.startswith(b'ledger: ') and place.path.encode() in said, said)
    same('the lock that is left', place.got('book.journal.lock'), None)


def as_nobody():
    """For a run without the rights of root."""
    if os.getuid() == 0:
        os.setgroups([])
        os.setgid(NOBODY)
        os.setuid(NOBODY)


def lent(place):
    """A place whose ledger and folder anybody may use."""
    shutil.copy(place.command, place.at('program'))
    os.chmod(place.at('program'), 0o755)
    folder = place.at('lent')
    os.mkdir(folder)
    os.chmod(folder, 0o777)
    return Place(place.at('program'), folder)


@contextlib.contextmanager
def disk(place, options):
    """A place on a small file system of its own."""
    folder = place.at('disk')
    os.mkdir(folder)
    if subprocess.run(['mount', '-t', 'tmpfs', '-o', options, 'none', folder], stderr=subprocess.DEVNULL).returncode:
        raise Skip('no mount is permitted')
    try:
        yield Place(place.command, folder)
    finally:
        subprocess.run(['umount', folder], check=True)


def fill(path, left):
    """Fills a disk by a file, up to so many bytes."""
    file = os.open(path, os.O_WRONLY | os.O_CREAT)
    try:
        while True:
            os.write(file, bytes(4096))
    except OSError:
        os.ftruncate(file, os.fstat(file).st_size - left)
    os.close(file)


def strace(*words):
    if not shutil.which('strace'):
        raise Skip('there is no strace')
    return ['strace', '-f', '-qq', '-o', '/dev/null', *words]


def fault(path, *faults):
    """Makes calls of the system on a path fail: each fault has the calls, the error and which of them fail."""
    words = ['-P', path, '-e', 'trace=' + ','.join(calls for calls, _, _ in faults)]
    for calls, error, when in faults:
        words += ['-e', f'inject={calls}:error={error}:when={when}']
    return strace(*words)


FORCE, APPEND, CUT = 'fdatasync,fsync', 'write,pwrite64,writev', 'ftruncate,truncate'


# ---- the filter, and how an input is read

@case
def filter(place):
    """Lines of every kind are answered as the reference answers them, and a last line without newline too."""
    for data in (CALLS, CALLS + b'statement 0', many(50) + CALLS, b'', b'\n', b'calls', b'#', b'admit 0 0 # no newline'):
        out, said = place.run(data=data)
        same('the answers', out, filtered(data))
        same('on standard error', said, b'')
    same('the files', place.names(), [])


@case
def byte_order_mark(place):
    """A mark at the start of an input is passed over, in one part or in single bytes, and nowhere else."""
    mark = ledger.MARK
    for data in (mark + CALLS, mark + b'\n' + CALLS, mark + mark + CALLS, b'\n' + mark + CALLS, mark[:2] + CALLS, mark + b'calls', b' ' + mark + CALLS):
        same('the answers', place.run(data=data)[0], filtered(data))
        with place.talk('--end') as talk:
            for byte in data[:12]:
                talk.send(bytes([byte]))
                time.sleep(0.003)
            talk.send(data[12:])
            same('the answers to single bytes', talk.end()[0], filtered(data, end=True))


@case
def byte_order_mark_of_a_journal(place):
    """A mark at the start of a journal is passed over and stays there; the mark of the input is not kept."""
    keeps(place, ledger.MARK + b'calls\nadmit 1 2\n', journal=ledger.MARK + b'fresh 5\nadmit 0 0\n')
    keeps(place, ledger.MARK + b'fresh 7\nadmit 1 2\nreport\n', journal=b'')
    place.put(b'fresh 5\n' + ledger.MARK + b'admit 0 0\n')
    refuses(place, place.path, texts=[f'{place.path}: line 2: error 2 no such call'.encode()])


@case
def one_byte_at_a_time(place):
    """A slow pipe gives the same answers and the same journal as a file."""
    answers, left = due(CALLS)
    for words in ((place.path,), ('--batch', place.path)):
        with place.talk(*words) as talk:
            for byte in CALLS:
                talk.send(bytes([byte]))
                time.sleep(0.0005)
            out, said = talk.end()
        same('the answers', out, answers)
        same('the journal', place.got(), left)
        same('on standard error', said, b'')
        os.remove(place.path)
    place.put(CALLS, 'input')
    with open(place.at('input'), 'rb') as file:
        same('the answers to a file', place.run(place.path, stdin=file), (answers, b''))
    same('the journal of a file', place.got(), left)


def long_input():
    """Lines around the longest, as calls, comments and no calls, with short ones between them."""
    lines = [b'fresh 2021-02-01', b'admit 0 producer']
    for n, size in enumerate((65534, 65535, 65536, 65537, 131072, 200000, 65535)):
        start = b'settle 0 2020-10 %d 0 0 0' % n
        for line in (start + b' ' * (size - len(start) - 1) + b'7', b'#' * size, b'x' * size, b'calls'.ljust(size)):
            lines += [line, b'settle 0 2020-10 100 %d 0 0 0' % len(lines)]
    return joined(lines)


@case
def long_lines(place):
    """Lines of 65,535 bytes are taken and longer ones are errors, wherever the parts of the input end."""
    data = long_input()
    same('the answers of the filter', place.run(data=data), (filtered(data), b''))
    keeps(place, data)
    os.remove(place.path)
    answers, left = due(data)
    with place.talk('--batch', place.path) as talk:
        for at in range(0, len(data), 49999):
            talk.send(data[at:at + 49999])
        same('the answers to parts', talk.end(), (answers, b''))
    same('the journal', place.got(), left)


@case
def long_lines_of_a_journal(place):
    """A journal's line of 65,535 bytes is replayed, and a longer one stops the replay."""
    keeps(place, b'report\n', journal=b'admit 0 0'.ljust(65535) + b'\n' + b'admit 1 0'.ljust(65535) + b'\nadmit 2 0\n')
    for size in (65536, 200000):
        place.put(b'admit 3 0\n' + b'admit 0 0'.ljust(size) + b'\nadmit 1 0\n')
        refuses(place, place.path, texts=[f'ledger: {place.path}: line 2: error 2 line too long\n'.encode()])


@case
def torn_input(place):
    """A last line of standard input without its newline is not taken in the kept way."""
    for rest in (b'admit 5 2', b'calls', b'a', b' ', b'# a comment', b'frob', b'\x00', b'calls'.ljust(65535), b'x' * 200000):
        data = CALLS + rest
        keeps(place, data)
        holds('it is taken', place.got() == due(CALLS)[1])
        os.remove(place.path)
        keeps(place, data, '--batch', '--end', end=True)
        os.remove(place.path)
    keeps(place, b'admit 5 2')


@case
def interrupted_streams(place):
    """A read or write of the standard streams that is interrupted is made again."""
    place.put(CALLS + settled(range(300)), 'input')
    data = place.got('input')
    for words, answers in (((), filtered(data)), ((place.path,), due(data)[0])):
        with open(place.at('input'), 'rb') as inward, open(place.at('output'), 'wb') as outward:
            _, said = place.run(*words, stdin=inward, stdout=outward, before=strace(
                '-P', place.at('input'), '-P', place.at('output'), '-e', 'trace=read,write', '-e', 'inject=read,write:error=EINTR:when=1+2'))
        same('on standard error', said, b'')
        same('the answers', place.got('output'), answers)
    same('the journal', place.got(), due(data)[1])


def pipe(size):
    """A small pipe, of which both ends don't wait."""
    ends = os.pipe()
    fcntl.fcntl(ends[1], fcntl.F_SETPIPE_SZ, size)
    for end in ends:
        os.set_blocking(end, False)
    return ends


def unwaiting(place, words, data):
    """A run whose standard input and output are small pipes that don't wait, fed and read with pauses: a long one before its first
    line, and one when its answers wait. Gives its answers and messages."""
    (ask, tell), (hear, answer) = pipe(4096), pipe(4096)
    process = subprocess.Popen([place.command, *words], stdin=ask, stdout=answer, stderr=subprocess.PIPE)
    os.close(ask), os.close(answer)
    out, heard, rests = b'', time.time(), [0, 9000]
    try:
        while True:
            time.sleep(0.7 if rests and len(out) >= rests[0] and rests.pop(0) >= 0 else 0.02)
            if tell is not None:
                with contextlib.suppress(BlockingIOError):
                    data = data[os.write(tell, data[:3000]):]
                if not data:
                    tell = os.close(tell)
            with contextlib.suppress(BlockingIOError):
                piece = os.read(hear, 2000)
                out, heard = out + piece, time.time()
                if not piece:
                    return out, process.stderr.read()
            holds(f'no answer for {PATIENCE} seconds', time.time() < heard + PATIENCE)
    except BrokenPipeError:
        raise Wrong(f'it ended before its input: {process.stderr.read()}')
    finally:
        process.kill()
        process.wait()
        process.stderr.close()
        for end in (tell, hear):
            if end is not None:
                os.close(end)


@case
def streams_that_do_not_wait(place):
    """Standard streams with O_NONBLOCK are waited for, and not by running in circles."""
    data = CALLS + b'report\n' * 60 + settled(range(900))          # the reports fill the pipe
    for words, answers in (((), filtered(data)), (('--batch', place.path), due(data)[0])):
        began, used = time.time(), resource.getrusage(resource.RUSAGE_CHILDREN)
        same('the answers', unwaiting(place, words, data), (answers, b''))
        now = resource.getrusage(resource.RUSAGE_CHILDREN)
        spent, passed = now.ru_utime + now.ru_stime - used.ru_utime - used.ru_stime, time.time() - began
        holds(f'{spent:.1f} s of computing in {passed:.1f} s', spent < 0.25 * passed)
    same('the journal', place.got(), due(data)[1])


# ---- what is kept

@case
def kept_changes(place):
    """Changes are kept in their numeric form and questions are not; the next run goes on from there."""
    keeps(place, CALLS)
    keeps(place, b'report\nfresh 5\nadmit 9 producer\n', journal=place.got())
    keeps(place, many(40), journal=b'')
    left = place.got()
    keeps(place, b'report\ncalls\nstatement 0\n' + SPECIAL + b'\n', journal=left)
    same('the journal after questions', place.got(), left)
    for data in (b'', b'\n\n', b'# nothing\n', b'calls\nreport\n', b'frob\nadmit 64 0\n', b'role-retired\nadmit 0 1\n'):
        keeps(place, data, journal=b'')
        same('the journal without a change', place.got(), b'')


@case
def batch_lines(place):
    """Accepted batches are kept in small digits, the largest too, refused ones are not, and the next run goes on from there."""
    some = month_file(11, (0, [700, 0, 0, 0, 0]), (1, [-5] * 16))
    less = month_file(11, (1, [900, 0, 0, 0, 0]), (2, [1, 0, 0, 0, 0]))
    data = b'fresh 2021-02-01\nadmit 0 3\nadmit 1 4\n' + batch_line(some).upper().replace(b'BATCH', b'batch') + batch_line(less) + b'calls\n'
    keeps(place, data + b'batch\nbatch 0\nbatch 00 00\n')
    holds('the line is not there', place.got().endswith(batch_line(some)), place.got())
    keeps(place, b'calls\nadmit 2 5\n' + batch_line(less) + b'calls\nadvance 2021-02-12 20\nreport\n', journal=place.got())
    keeps(place, b'report\n', journal=place.got())
    large = batch_line(month_file(11, *((p, [p, -1] * 8) for p in range(64))))
    data = joined([b'fresh 2021-02-01'] + [b'admit %d 3' % p for p in range(64)]) + large * 5 + b'calls\nreport\n'
    for words in ((), ('--batch',)):
        keeps(place, data, *words, journal=b'')
        keeps(place, large + b'calls\n', *words, journal=place.got())
    for size in (65528, 65530):
        keeps(place, b'admit 0 0\nbatch ' + b'0' * size + b'\ncalls\n', journal=b'')


@case
def journal_with_a_refused_batch(place):
    """A batch in a journal that is refused or no call stops the ledger with nothing changed."""
    for line, said in ((b'batch', 'refused 20 0'), (b'batch 0', 'error 2 not two hexadecimal digits for each byte'),
                       (batch_line(month_file(11, (0, [1] * 5)))[:-1], 'refused 12 0'), (b'batch 00 00', 'error 2 too many words')):
        place.put(b'admit 0 3\n' + line + b'\nadmit 1 3\n')
        refuses(place, place.path, texts=[f'ledger: {place.path}: line 2: {said}\n'.encode()])


@case
def fresh_behind_questions(place):
    """`fresh` is accepted until the first change, in this run or an earlier one."""
    keeps(place, b'calls\nreport\nfresh 29220\nfresh 2021-01-01\nfresh 7\nreport\n')
    keeps(place, b'fresh 7\ncalls\n', journal=place.got())
    keeps(place, b'report\nfresh 7\nreport\n', journal=b'# no change yet\n\ncalls\nreport\n' + SPECIAL + b'\n')
    keeps(place, b'admit 0 0\nfresh 7\n', journal=b'')


@case
def old_journal(place):
    """A journal with questions in it, as they were kept once, is replayed, is not rewritten and is gone on with."""
    old = b'calls\nadmit 0 0\nstatement 0\n' + SPECIAL + b'\nlodge 0 0 cash 2000000\ncalls\n'
    keeps(place, b'report\nfresh 5\nlodge 0 1 cash 7\n', journal=old)


@case
def mode_of_a_new_journal(place):
    """A new journal may be read and written by its owner alone, whatever the mask; the mode of an old one stays."""
    for mask in (0, 0o022, 0o077):
        keeps(place, b'admit 0 0\n', preexec_fn=lambda: os.umask(mask))
        same('the mode', oct(os.stat(place.path).st_mode & 0o7777), oct(0o600))
        os.remove(place.path)
    place.put(b'')
    os.chmod(place.path, 0o640)
    keeps(place, b'admit 0 0\n')
    same('the mode of an old one', oct(os.stat(place.path).st_mode & 0o7777), oct(0o640))


@case
def relative_name(place):
    """A journal named without a directory is made, locked and gone on with in the working directory."""
    for data in (b'admit 0 0\n', b'admit 1 2\nreport\n'):
        answers, left = due(data, place.got() or b'')
        same('the answers', place.run('book.journal', data=data, cwd=place.folder), (answers, b''))
        same('the journal', place.got(), left)
        same('the files', place.names(), ['book.journal'])


# ---- torn journals, and files that are none

@case
def torn_journal(place):
    """A short rest behind complete lines is cut off, and what it was is said."""
    journal = due(CALLS)[1]
    for rest in (b'a', b'lodge 0 0 cash 777', b'admit 5 2', b'\x00\x1f\x7f\xff~ \t', b' ', b'#', b'\r', b'x' * 4096, b'y' * ledger.DROPPED):
        place.put(journal + rest)
        out, said = place.keep(b'report\nadmit 5 2\n')
        answers, left = due(b'report\nadmit 5 2\n', journal)
        same('on standard error', said, (ledger.dropped(place.path, rest) + '\n').encode())
        same('the answers', out, answers)
        same('the journal', place.got(), left)
        same('the lock that is left', place.got('book.journal.lock'), None)


@case
def rest_that_is_not_dropped(place):
    """A rest with neither a kept call nor `role-retired` before it, or of more bytes than are dropped, stops the ledger with nothing changed."""
    more = ledger.DROPPED + 1
    for journal, rest in ((b'', b'admit 0 0'), (b'', b'a'), (b'', b'x' * 200000), (b'admit 0 0\n', b'x' * more), (b'admit 0 0\n', b'y' * 65536),
                          (b'admit 0 0\nadmit 1 0\n', b'z' * 200000), (b'', ledger.MARK + b'admit 0 0'), (b'\n', b'admit 0 0'),
                          (b'# a comment\n', b'admit 0 0'), (b' \r\n\n', b'a'), (b'calls\nreport\n', b'admit 0 0'),
                          (b'role-retired\n', b'x' * more), (b'', b'role-ret'), (b'', b'role-retired'), (b'\n#\n', b'role-retired')):
        place.put(journal + rest)
        refuses(place, place.path, texts=[f'ledger: {place.path}: line {journal.count(10) + 1}: '.encode()])


@case
def journal_that_does_not_replay(place):
    """A line that is refused or no call stops the ledger with nothing changed, a rest behind it too."""
    for journal, said in ((b'admit 0 0\n\nadmit 0 0\n', 'line 3: refused 3'), (b'admit 0 0\nfrob\nadmit 1 0\n', 'line 2: error 2 no such call'),
                          (b'admit 0 0\nfresh 5\n', 'line 2: error 2 fresh is not the first call'), (b'statement 0\n', 'line 1: refused 2'),
                          (b'admit 0 0\nadmit 64 0\nadm', 'line 2: refused 1'), (b'admit 0 0\nadmit 1\x00 0\nx', 'line 2: error 2 a control byte'),
                          (many(3000) + b'admit 0 0\n', 'line 3003: refused 3')):
        place.put(journal)
        refuses(place, place.path, texts=[f'ledger: {place.path}: {said}\n'.encode()])


@case
def file_that_is_no_journal(place):
    """A text or a program given by mistake is left byte for byte as it is."""
    text = b'Dear reader,\nthis is a letter.\n'
    for data in (text, text[:-1], b'a note', b'a note\n', b'x' * 9000, b'\x7fELF\x02\x01\x01\x00' + bytes(range(256)) * 100, b'\r\n'.join([b'a', b'b']),
                 b'1;2;3\n' * 9000):
        place.put(data)
        refuses(place, place.path, texts=[f'ledger: {place.path}: line 1: '.encode()])


@case
def month_file_that_is_no_journal(place):
    """A month's file or its table given by mistake as the journal is left as it is, whatever bytes it begins with."""
    for month, people in ((10, (0,)), (35, range(12)), (35, (10,)), (2570, (3,)), (9, (10,))):
        place.put(month_file(month, *((p, [100, 200, 300, 400, 500]) for p in people)))
        refuses(place, place.path, texts=[f'ledger: {place.path}: line '.encode()])
    for table in (b'# January\n0,600000,0,250000,2000000,150000', b'\n0,1,2,3,4,5', b'# January\r\n\r\n1,2', b'#\n#'):
        place.put(table)
        refuses(place, place.path, texts=[f'ledger: {place.path}: line '.encode()])
        refuses(place, '--read', place.path, texts=[f'ledger: {place.path}: line '.encode()])


@case
def failing_cut(place):
    """Where a torn line can't be cut off, the ledger says so and answers nothing."""
    place.put(b'admit 0 0\nadm')
    out, said = place.keep(b'calls\nadmit 1 2\n', before=fault(place.path, (CUT, 'EIO', '1+')))
    same('the answers', out, b'')
    same('the journal', place.got(), b'admit 0 0\nadm')
    holds('no message of the failure', b'Input/output error' in said, said)


# ---- the lock

def dead():
    """The number of a process that has ended."""
    process = subprocess.Popen(['true'])
    process.wait()
    return process.pid


@case
def two_ledgers(place):
    """A second ledger on a journal names the first, answers nothing and changes nothing; when the first has ended, it may."""
    model = Model()
    with place.talk() as first:
        first.ask(b'fresh 5\nadmit 0 0\n', model)
        same('the lock', place.got('book.journal.lock'), b'%d\n' % first.process.pid)
        said = f'ledger: {place.path}: kept by process {first.process.pid}, see {place.lock}\n'.encode()
        same('the second says', refuses(place, place.path), said)
        same('the second with --batch says', refuses(place, '--batch', place.path), said)
        first.ask(b'admit 1 2\nreport\n', model)
        same('the end of the first', first.end(), (b'', b''))
    same('the journal', place.got(), model.appended())
    keeps(place, b'admit 2 2\nreport\n', journal=place.got())


@case
def stale_lock(place):
    """A lock whose process was killed or no longer exists is taken over."""
    model = Model()
    with place.talk() as talk:
        talk.ask(b'fresh 5\nadmit 0 0\n', model)
        talk.process.send_signal(signal.SIGKILL)
        talk.rest()
        same('the lock after a kill', place.got('book.journal.lock'), b'%d\n' % talk.process.pid)
    keeps(place, b'admit 1 2\nreport\n', journal=place.got())
    place.put(b'%d\n' % dead(), 'book.journal.lock')
    keeps(place, b'admit 2 2\nreport\n', journal=place.got())
    os.remove(place.path)
    place.put(b'%d\n' % dead(), 'book.journal.lock')
    keeps(place, b'admit 2 2\nreport\n')


@case
def lock_of_a_living_process(place):
    """A lock of any process that exists is respected, of one too that may not be sent signals."""
    place = lent(place)
    place.put(b'admit 0 0\n')
    os.chmod(place.path, 0o666)
    for number in (os.getpid(), 1):
        place.put(b'%d\n' % number, 'book.journal.lock')
        said = refuses(place, place.path, preexec_fn=as_nobody)
        same('on standard error', said, f'ledger: {place.path}: kept by process {number}, see {place.lock}\n'.encode())


@case
def empty_lock_file(place):
    """A lock that names no process is taken over, or refused by name with nothing changed."""
    for lock in (b'', b'\n', b'12', b'not a number\n', b'99999999999999999999999999\n', b'-1\n', b'0\n'):
        place.put(b'admit 0 0\n')
        place.put(lock, 'book.journal.lock')
        before = snapshot(place.folder)
        out, said = place.keep(b'admit 1 2\nreport\n')
        if out:
            same('the answers', (out, place.got()), due(b'admit 1 2\nreport\n', b'admit 0 0\n'))
            same('the lock that is left', place.got('book.journal.lock'), None)
        else:
            same('the files', snapshot(place.folder), before)
            holds('the lock is not named', place.lock.encode() in said, said)


@case
def two_names(place):
    """Two ledgers that keep one file by two names lose nothing: the second is refused, or the first stops."""
    link, model = place.at('link'), Model()
    os.symlink(place.path, link)
    with place.talk() as first:
        first.ask(b'fresh 5\nadmit 0 0\n', model)
        with place.talk(link) as second:
            second.send(b'lodge 0 0 cash 5\n')
            if second.hear(1):
                same('the second answers', second.out, b'done\n')
                model.answer(b'lodge 0 0 cash 5')
                out, said = first.stops(b'admit 1 2\n')
                same('the first answers', out, b'')
                holds('the first says nothing', b'nothing more is kept' in said, said)
            else:
                first.ask(b'admit 1 2\n', model)
    same('the journal', place.got(), model.appended())


def meddled(place, meddle, expected, words=()):
    """What another program does to a journal while it is kept: no change is answered then, the ledger stops, and what it finds stays."""
    model = Model()
    with place.talk(*words, place.path) as talk:
        talk.ask(many(5) + b'report\n', model)
        meddle(model.appended())
        out, said = talk.stops(settled([77]))
    same('the answers', out, b'')
    holds('on standard error', said.startswith(f'ledger: {place.path}'.encode()) and b'nothing more is kept' in said, said)
    same('the files', {name: data for name, (_, data) in snapshot(place.folder).items()}, expected(model.appended()))


@case
def journal_truncated(place):
    """A journal that was truncated while it was open gets no more lines."""
    for size in (0, 20):
        for words in ((), ('--batch',)):
            meddled(place, lambda data: os.truncate(place.path, size), lambda data: {'book.journal': data[:size]}, words)
            os.remove(place.path)


@case
def journal_appended_to(place):
    """A journal that another program appended to gets no more lines, and keeps those."""
    for more in (b'admit 9 3\n', b'x'):
        for words in ((), ('--batch',)):
            meddled(place, lambda data: place.put(data + more), lambda data: {'book.journal': data + more}, words)
            os.remove(place.path)


@case
def journal_renamed(place):
    """A journal that was renamed while it was open gets no more lines."""
    meddled(place, lambda data: os.rename(place.path, place.at('away')), lambda data: {'away': data})


@case
def journal_deleted(place):
    """A journal that was deleted while it was open is not answered for, nor made again."""
    meddled(place, lambda data: os.remove(place.path), lambda data: {})


@case
def journal_replaced(place):
    """A journal whose name leads to another file gets no more lines, though that has the same bytes."""
    def replace(data):
        place.put(data, 'new')
        os.rename(place.at('new'), place.path)
    meddled(place, replace, lambda data: {'book.journal': data})


@case
def lock_removed(place):
    """A ledger whose lock was removed keeps nothing more."""
    meddled(place, lambda data: os.remove(place.lock), lambda data: {'book.journal': data})


@case
def lock_replaced(place):
    """A ledger whose lock is another's keeps nothing more, and leaves that lock."""
    other = b'%d\n' % os.getpid()

    def replace(data):
        os.remove(place.lock)
        place.put(other, 'book.journal.lock')
    meddled(place, replace, lambda data: {'book.journal': data, 'book.journal.lock': other})


@case
def questions_go_on(place):
    """Questions need no append: they are answered though the journal was renamed."""
    model = Model()
    with place.talk() as talk:
        talk.ask(many(5), model)
        os.rename(place.path, place.at('away'))
        talk.ask(b'report\ncalls\nadmit 0 0\n', model)
        same('the answers to a change', talk.stops(b'admit 1 2\n')[0], b'')


# ---- streams that are closed, or take nothing

@case
def answers_that_can_not_be_written(place):
    """Where standard output takes nothing, the ledger says so and stops: no more than the one change in work is kept, with --batch the one part."""
    for words, most in (((), 2), (('--batch',), 23)):              # lines, the first of them `role-retired`
        with open('/dev/full', 'wb') as full:
            _, said = place.run(*words, place.path, data=many(20), stdout=full)
        holds('no message', b'standard output' in said, said)
        holds('more is kept', due(many(20))[1].startswith(place.got()) and place.got().count(b'\n') <= most, place.got())
        same('the lock that is left', place.got('book.journal.lock'), None)
        os.remove(place.path)


def closed(place, number):
    """Runs with a closed descriptor, on no journal and on one: nothing made, nothing changed."""
    for journal in (None, b'fresh 5\nadmit 0 0\n'):
        for words in ((place.path,), ('--batch', place.path)):
            if journal is not None:
                place.put(journal)
            before = snapshot(place.folder)
            out, said = place.run(*words, data=b'admit 1 2\ncalls\n', preexec_fn=lambda: os.close(number))
            same('the files', snapshot(place.folder), before)
            same('the answers', out, b'')
            holds('no message on standard error', number == 2 or said.startswith(b'ledger: '), said)


@case
def closed_standard_input(place):
    """With standard input closed nothing is made or changed: the journal could get its number."""
    closed(place, 0)


@case
def closed_standard_output(place):
    """With standard output closed nothing is made or changed: answers could go to the journal."""
    closed(place, 1)


@case
def closed_standard_error(place):
    """With standard error closed nothing is made or changed: messages could go to the journal."""
    closed(place, 2)


# ---- failures of the disk

@case
def full_disk(place):
    """On a disk that gets full, the call that doesn't fit is not answered, and the journal is cut back to the answered ones."""
    with disk(place, 'size=64k') as small:
        for words in ((small.path,), (small.path, '--batch')):
            fill(small.at('filler'), 8192)          # a page for the lock and one for the journal
            with small.talk(*words) as talk:
                talk.send(many(20))
                out = talk.hear(22)
                rest, said = talk.stops(settled(range(20, 400)))
            failed(small, b'', many(400), out + rest, said)
            holds('no message of a full disk', b'No space left on device' in said, said)
            os.remove(small.at('filler'))
            left = small.got()
            keeps(small, b'report\n' + settled([5]), journal=left)
            os.remove(small.path)


@case
def full_disk_at_the_start(place):
    """On a full disk the ledger says so, answers no change, and leaves no lock that is in the way later."""
    with disk(place, 'size=64k') as small:
        small.put(b'admit 0 0\n')
        fill(small.at('filler'), 0)
        out, said = small.keep(settled([1]))
        holds('no message', said.startswith(b'ledger: '), said)
        same('the answers', out, b'')
        same('the journal', small.got(), b'admit 0 0\n')
        os.remove(small.at('filler'))
        keeps(small, b'admit 1 2\n', journal=b'admit 0 0\n')


@case
def file_size_limit(place):
    """At the system's limit of a file's size, the call that doesn't fit is not answered, and the part of its line is cut off."""
    def limit():
        signal.signal(signal.SIGXFSZ, signal.SIG_IGN)
        resource.setrlimit(resource.RLIMIT_FSIZE, (1010, 1010))
    with place.talk(preexec_fn=limit, restore_signals=False) as talk:
        out, said = talk.stops(many(200))
    failed(place, b'', many(200), out, said)


@case
def failing_fdatasync(place):
    """A change that can't be forced to disk is not answered, and nothing behind it; it is cut off."""
    journal, data = due(many(3))[1], settled(range(50, 60))
    for when, lines in ((1, data), (3, data), (3, b'calls\nfrob\n' + data), (10, data)):
        place.put(journal)
        with Talk(fault(place.path, (FORCE, 'EIO', when)) + [place.command, place.path]) as talk:
            out, said = talk.stops(lines)
        failed(place, journal, lines, out, said, when - 1)
        keeps(place, b'report\n' + data, journal=place.got())


@case
def failing_write(place):
    """A change that can't be appended is not answered, and nothing behind it."""
    journal, data = due(many(3))[1], settled(range(50, 60))
    for error in ('ENOSPC', 'EIO', 'EDQUOT'):
        for when in (1, 3, 10):
            place.put(journal)
            with Talk(fault(place.path, (APPEND, error, when)) + [place.command, place.path]) as talk:
                out, said = talk.stops(data)
            failed(place, journal, data, out, said, when - 1)
            keeps(place, b'report\n' + data, journal=place.got())


@case
def failing_batch(place):
    """Of a part that can't be forced to disk no change is answered, and all of it is cut off."""
    for calls in (FORCE, APPEND):
        journal, first, data = due(many(3))[1], settled(range(50, 60)), settled(range(60, 90))
        place.put(journal)
        model = Model(journal)
        with Talk(fault(place.path, (calls, 'EIO', 2)) + [place.command, '--batch', place.path]) as talk:
            talk.ask(first, model)
            out, said = talk.stops(data)
        same('the answers to the second part', out, b'')
        failed(place, journal, first + data, talk.out, said, 10)


@case
def failing_cut_back(place):
    """Where the journal can't be cut back either, the call that failed is still not answered."""
    journal, data = due(many(3))[1], settled(range(50, 60))
    place.put(journal)
    with Talk(fault(place.path, (FORCE, 'EIO', '2+'), (CUT, 'EIO', '1+')) + [place.command, place.path]) as talk:
        out, said = talk.stops(data)
    same('the answers', out, due(data, journal)[0][:len(out)])
    same('the answered lines', out.count(b'\n'), 1)
    holds('the acknowledged call is not in the journal', place.got().startswith(due(settled([50]), journal)[1]))
    holds('no message on standard error', said.startswith(b'ledger: '), said)


def unmade(place, path):
    """The first force to disk of a path fails, while a journal is made: no journal is left, nothing is answered."""
    refuses(place, place.path, before=fault(path, (FORCE, 'EIO', 1)))
    keeps(place, b'admit 1 2\ncalls\n')


@case
def failing_fsync_of_a_new_journal(place):
    """A journal that can't be forced to disk when it is made is not left."""
    unmade(place, place.path)


@case
def failing_fsync_of_the_directory(place):
    """A journal whose directory can't be forced to disk when it is made is not left."""
    unmade(place, place.folder)


# ---- the order of the calls of the system

def trace(place, words, data):
    """Runs the ledger from a file to a file. Gives the calls of the system on those and the journal: name, file, result."""
    strace()
    place.put(data, 'input')
    with open(place.at('input'), 'rb') as inward, open(place.at('output'), 'wb') as outward:
        _, said = place.run(*words, stdin=inward, stdout=outward, before=[
            'strace', '-f', '-qq', '-y', '-s', '0', '-o', place.at('trace'), '-e', 'trace=read,write,pwrite64,writev,fdatasync,fsync'])
    same('on standard error', said, b'')
    found = re.findall(r'^\d+ +(\w+)\(\d+<([^>]*)>.*?\) += (-?\d+)', place.got('trace').decode(), re.M)
    return [(call, os.path.basename(path), int(result)) for call, path, result in found]


def needs(data, journal):
    """For each byte of the answers to an input how long the journal on disk has to be before it: 0 where it belongs to no change."""
    model, found, length = Model(journal), [], len(journal)
    for line in data.split(b'\n')[:-1]:
        kept, answer = len(model.lines), model.answer(line)
        more = sum(len(line) + 1 for line in model.lines[kept:])
        length += more
        found += [length if more else 0] * (len(answer) + 1 if answer is not None else 0)
    return found


def in_order(place, words, data, journal=b''):
    """A run on a new journal, or on one that is put there: no byte of an answer to a change is written before a force to disk that follows the
    append of its line. Gives the counts of reads, appends and forces."""
    if journal:
        place.put(journal)
    calls = trace(place, words, data)
    same('the answers', place.got('output'), due(data, journal)[0])
    same('the journal', place.got(), due(data, journal)[1])
    due_at, appended, forced, answered = needs(data, journal), len(journal), len(journal), 0
    counts = {'read': 0, 'append': 0, 'force': 0}
    for call, name, result in calls:
        holds(f'{call} of {name} failed', result >= 0)
        if name == 'book.journal' and 'write' in call:
            appended, counts['append'] = appended + result, counts['append'] + 1
        elif name == 'book.journal' and 'sync' in call:
            counts['force'] += appended > forced
            forced = appended
        elif name == 'input' and result:
            counts['read'] += 1
        elif name == 'output':
            least = max(due_at[answered:answered + result], default=0)
            holds(f'an answer at byte {answered} when {appended} bytes were appended and {forced} forced, due are {least}', forced >= least)
            answered += result
    return counts


@case
def order_of_the_calls(place):
    """Every answer to a change is written after its line was appended and then forced to disk; each change has its own force."""
    data = CALLS + settled(range(30)) + b'report\n' * 3 + settled(range(90, 99))
    counts = in_order(place, [place.path], data)
    changes = due(data)[1].count(b'\n') - 1                       # the first is appended with `role-retired` before it
    same('appends and forces', (counts['append'], counts['force']), (changes, changes))


@case
def order_of_a_batch(place):
    """With --batch the changes that were read at once have one append and one force, and still no answer comes before."""
    data = many(250)
    counts = in_order(place, ['--batch', place.path], data)
    same('reads, appends and forces', (counts['read'], counts['append'], counts['force']), (1, 1, 1))
    os.remove(place.path)
    data = many(6000)
    counts = in_order(place, ['--batch', place.path], data)
    holds('more appends or forces than reads', max(counts['append'], counts['force']) <= counts['read'], counts)


@case
def batch_with_many_answers(place):
    """A part whose answers are far longer than itself is answered in order and never before it is on disk."""
    lines = [b'fresh 2021-02-01'] + [b'admit %d 3' % p for p in range(64)]
    for n in range(150):
        lines += [b'settle 0 2020-10 %d 0 0 0 0' % n, b'report', b'report', b'frob', b'admit 0 0']
    data = joined(lines)
    in_order(place, ['--batch', place.path], data)


STEPS = ('openat', 'read', 'write', 'fdatasync', 'fsync', 'close', 'fstat', 'newfstatat', 'stat', 'ftruncate', 'unlink', 'link', 'rename')


def killed(place, step, when, data):
    """Kills the ledger as it is about to make a call of the system for the n-th time on the journal, its lock, its directory or its output. Gives
    what it answered."""
    words = strace('-e', f'trace=?{step}', '-e', f'inject=?{step}:signal=KILL:when={when}')
    for path in (place.path, place.lock, place.folder, place.at('output')):
        words += ['-P', path]
    with open(place.at('output'), 'wb') as outward:
        subprocess.run(words + [place.command, place.path], input=data, stdout=outward, stderr=subprocess.DEVNULL, timeout=PATIENCE)
    return place.got('output')


def restarts(place, journal, rest, data, out):
    """After a kill: the journal has what was acknowledged and at most one change more, and the next start goes on from there."""
    model = Model(journal)
    acknowledged(model, data, out)
    found, whole = place.got() or b'', due(data, journal)[1]
    if out or found != journal + rest:
        holds('the journal', whole.startswith(found) and found[-1:] in (b'', b'\n'), found)
        more = found[len(journal):].split(b'\n')[:-1]
        holds('not one change more', len(more) - more.count(RETIRED) - model.changes() in (0, 1), found)
        holds('the end of the first stretch without a change behind it', more[-1:] != [RETIRED], found)
    found = found[:found.rfind(b'\n') + 1]
    same('the answers after a start', place.keep(b'report\n')[0], due(b'report\n', found)[0])
    same('the journal after a start', place.got(), found)
    same('the lock that is left', place.got('book.journal.lock'), None)


@case
def killed_at_every_step(place):
    """Killed before any of its calls of the system, the ledger leaves what was acknowledged and at most one change more, and starts again."""
    data = b'calls\n' + many(3)
    for journal, rest in ((b'', b''), (b'fresh 397\nadmit 0 3\n', b'adm'), (b'fresh 397\nadmit 1 1\nadmit 0 3\n', b'role-ret'),
                          (b'role-retired\nfresh 397\nadmit 0 3\n', b'')):
        for step in STEPS:
            for when in (1, 2, 3, 4, 6):
                if journal:
                    place.put(journal + rest)
                try:
                    restarts(place, journal, rest, data, killed(place, step, when, data))
                except Wrong as wrong:
                    raise Wrong(f'killed before {step} {when}, {len(journal)} bytes of journal: {wrong}')
                os.remove(place.path)


# ---- what is no file, and what may not be used

@case
def device(place):
    """A device is no journal."""
    for name in ('null', 'full', 'zero'):
        os.symlink(f'/dev/{name}', place.at(name))
        refuses(place, place.at(name), texts=[place.at(name).encode()])


@case
def named_pipe(place):
    """A pipe is no journal, and is not waited for, be it read or kept."""
    os.mkfifo(place.path)
    refuses(place, place.path, texts=[place.path.encode()])
    refuses(place, '--read', place.path, texts=[place.path.encode()])


@case
def directory(place):
    """A directory is no journal, with or without a slash behind its name, nor is a name in no directory."""
    os.mkdir(place.at('inner'))
    for name in (place.at('inner'), place.at('inner') + '/', place.at('absent') + '/', place.at('absent/journal')):
        refuses(place, name, texts=[name.encode()])
        refuses(place, '--read', name, texts=[name.encode()])
    same('what is in it', os.listdir(place.at('inner')), [])


@case
def empty_name(place):
    """An empty name is no journal, and no lock is left."""
    refuses(place, '', cwd=place.folder)
    refuses(place, '--read', '', cwd=place.folder)


@case
def unwritable_directory(place):
    """Where no file may be made, the message says that permission is denied; an old journal isn't kept there either, since it can't be locked."""
    place = lent(place)
    os.chmod(place.folder, 0o555)
    refuses(place, place.path, texts=[place.path.encode(), b'Permission denied'], preexec_fn=as_nobody)
    os.chmod(place.folder, 0o755)
    place.put(b'admit 0 0\n')
    os.chmod(place.path, 0o666)
    os.chmod(place.folder, 0o555)
    refuses(place, place.path, texts=[place.path.encode(), b'Permission denied'], preexec_fn=as_nobody)


@case
def unwritable_journal(place):
    """A journal that may not be written or read is not kept, and the message says that permission is denied."""
    place = lent(place)
    for mode in (0o444, 0o000):
        place.put(b'admit 0 0\n')
        os.chmod(place.path, mode)
        refuses(place, place.path, texts=[place.path.encode(), b'Permission denied'], preexec_fn=as_nobody)
        os.remove(place.path)


@case
def read_only_file_system(place):
    """On a file system that may only be read, the message says so, and --read works."""
    with disk(place, 'size=64k') as small:
        small.put(b'admit 0 0\n')
        if subprocess.run(['mount', '-o', 'remount,ro', small.folder], stderr=subprocess.DEVNULL).returncode:
            raise Skip('no mount is permitted')
        for name in ('book.journal', 'another'):
            refuses(small, small.at(name), texts=[small.at(name).encode(), b'Read-only file system'])
        reads(small, b'report\nadmit 1 2\n')


@case
def long_names(place):
    """A name that is too long for the journal or for its lock is refused as that, and the longest that fits is kept."""
    for size in (251, 255, 256, 300):
        refuses(place, place.at('n' * size), texts=[b'File name too long'])
    same('the answers for a name of 250', place.run(place.at('n' * 250), data=b'admit 0 0\n'), (b'done\n', b''))
    same('the files', place.names(), ['n' * 250])
    for size in (4096, 4097, 5000, 8192, 9000, 70000):
        refuses(place, path_of(place, size), texts=[b'File name too long'])
    same('the answers for a path of 4,090', place.run(path_of(place, 4090), data=b'admit 0 0\n'), (b'done\n', b''))
    same('the files', len(place.names()), 2)


def path_of(place, size):
    """A path of so many bytes to a file in the folder, by many ways to stay there."""
    rest = size - len(place.folder) - 1
    return place.folder + '/' + './' * ((rest - 100) // 2) + 'n' * (100 + rest % 2)


# ---- options

@case
def bail(place):
    """--bail stops behind the first refusal or error, whose answer is printed; what stands behind it is not kept."""
    for data in (CALLS, many(20), many(20) + b'frob\n' + many(5), many(20) + b'admit 0 0\n' + settled([7]), b'frob\n', b'x' * 200000 + b'\nadmit 0 0\n'):
        same('the answers of the filter', place.run('--bail', data=data), (filtered(data, bail=True), b''))
        for words in ((), ('--batch',)):
            keeps(place, data, '--bail', *words, bail=True)
            os.remove(place.path)
    with place.talk('--bail', place.path) as talk:
        same('the answer', talk.stops(b'admit 0 0\nfrob\nadmit 1 2\n'), (b'done\nerror 2 no such call\n', b''))
    same('the journal', place.got(), b'role-retired\nadmit 0 0\n')


@case
def end(place):
    """--end writes the count of lines and of those accepted behind the last answer, whatever the input's last line is."""
    for data in (b'', b'\n', b'\n\n# a comment\nreport\n', CALLS, many(20), b'frob\n', b'frob', b'calls', b'admit 0 0\nadmit 0 0\nadmit 1 2',
                 b'x' * 70000 + b'\n', b'role-retired\nadmit 0 1\nrole-retired x\n', b'role-retired'):
        same('the answers of the filter', place.run('--end', data=data), (filtered(data, end=True), b''))
        for words in ((), ('--batch',)):
            keeps(place, data, '--end', *words, end=True)
            os.remove(place.path)


@case
def bail_and_end(place):
    """There is no end line behind a refusal that stopped the ledger, and there is one where nothing did."""
    for data in (CALLS, many(20), many(20) + b'frob\n', b'admit 0 0\nadmit 1 2'):
        same('the answers of the filter', place.run('--bail', '--end', data=data), (filtered(data, True, True), b''))
        for words in ((), ('--batch',)):
            keeps(place, data, '--end', *words, '--bail', bail=True, end=True)
            os.remove(place.path)


@case
def no_end_after_a_failure(place):
    """Where the journal can't be written, there is no end line."""
    place.put(b'admit 0 3\n')
    for words in ((), ('--batch',)):
        out, said = place.keep(b'admit 1 2\nadmit 2 2\n', '--end', *words, before=fault(place.path, (APPEND, 'EIO', 1)))
        same('the answers', out, b'')
        same('the journal', place.got(), b'admit 0 3\n')
        holds('no message on standard error', said.startswith(b'ledger: ') and place.path.encode() in said, said)


@case
def batch(place):
    """--batch gives the same answers and the same journal, of a file and of a pipe in any parts."""
    data = CALLS + settled(range(400)) + CALLS
    keeps(place, data, '--batch')
    os.remove(place.path)
    for size in (1, 7, 100, 4096):
        with place.talk('--batch', place.path) as talk:
            for at in range(0, len(data[:200 * size]), size):
                talk.send(data[at:min(at + size, 200 * size)])
            answers = talk.end()
        part = data[:200 * size]
        same('the answers', answers, (due(part)[0], b''))
        same('the journal', place.got(), due(part)[1])
        os.remove(place.path)
    same('the answers of the filter', place.run('--batch', data=data), (filtered(data), b''))


def reads(place, data, *words, bail=False, end=False, **ways):
    """A run of --read: the answers are due, and nothing is made or changed."""
    book, before = ledger.Read(), snapshot(place.folder)
    book.replay(place.got())
    book.begin(bail)
    answers = ledger.answers(data, book) + (ledger.ended(book) if end else b'')
    same('the answers', place.run(*words, '--read', place.path, data=data, **ways), (answers, passed_over(place)))
    same('the files', snapshot(place.folder), before)


def passed_over(place):
    """What is said of a rest behind the last newline of a journal that is read."""
    whole = place.got().endswith(b'\n') or not place.got()
    return b'' if whole else f'ledger: {place.path}: the last line has no end and is passed over\n'.encode()


@case
def journal_that_is_a_stream(place):
    """A journal that is standard input, output or error too is refused, with nothing read, written or changed."""
    journal = b'admit 0 0\nadvance 5 5\n'
    for number in range(3):
        place.put(journal)
        streams = [subprocess.PIPE] * 3
        with open(place.path, 'rb' if number == 0 else 'ab') as file:
            streams[number] = file
            process = subprocess.Popen([place.command, place.path], stdin=streams[0], stdout=streams[1], stderr=streams[2])
            try:
                out, said = process.communicate(b'statement 0\nadmit 1 0\n' if number else None, timeout=5)
            except subprocess.TimeoutExpired:
                raise Wrong('no end after 5 seconds')
            finally:
                process.kill()
        same('the answers', out or b'', b'')
        same('on standard error', said or b'', f'ledger: {place.path}: is standard input or output too; nothing is kept\n'.encode() if number < 2 else b'')
        same('the journal', place.got(), journal)
        same('the lock that is left', place.got('book.journal.lock'), None)


@case
def read(place):
    """--read answers questions, and every change as one; nothing is made or changed."""
    for journal in (b'', due(CALLS)[1], due(CALLS)[1] + CALLS[:3], ledger.MARK + b'admit 0 0\n', many(3000), OLD_BOOK, due(LATER, OLD_BOOK)[1]):
        place.put(journal)
        reads(place, CALLS)
        reads(place, b'report\n' + CALLS + b'fresh 99999\n', '--end', end=True)
        reads(place, b'report\nadmit 1 2\ncalls\n', '--bail', '--end', bail=True, end=True)
    refuses(place, '--read', place.at('absent'), texts=[place.at('absent').encode(), b'No such file or directory'])
    place.put(b'admit 0 0\nadmit 0 0\n')
    refuses(place, '--read', place.path, texts=[f'ledger: {place.path}: line 2: refused 3\n'.encode()])


@case
def read_while_it_is_kept(place):
    """--read works beside the ledger that keeps the journal, and each run of it sees what was acknowledged before."""
    model = Model()
    with place.talk() as talk:
        for data in (many(5), settled(range(50, 60)), b'advance 2021-03-01 5\n'):
            talk.ask(data, model)
            reads(place, b'report\ncalls\nstatement 0\nadmit 1 2\n')
        same('the end of the first', talk.end(), (b'', b''))
    same('the journal', place.got(), model.appended())


@case
def read_a_torn_journal(place):
    """--read passes over a rest behind the last newline and leaves it; what is no rest of a kept line stops it."""
    for rest in (b'a', b'admit 1 2', b'x' * ledger.DROPPED):
        place.put(b'admit 0 0\n' + rest)
        before = snapshot(place.folder)
        same('the answers', place.run('--read', place.path, data=b'report\n')[0], due(b'report\n', b'admit 0 0\n')[0])
        same('the files', snapshot(place.folder), before)
    for journal in (b'admit 0 0\n' + b'x' * (ledger.DROPPED + 1), b'admit 0 0\n' + b'x' * 200000, b'no journal', b'# a comment\nadm',
                    b'role-retired\n' + b'x' * (ledger.DROPPED + 1), b'role-retired'):
        place.put(journal)
        refuses(place, '--read', place.path, texts=[f'ledger: {place.path}: line {journal.count(10) + 1}: '.encode()])


@case
def read_without_the_right_to_write(place):
    """--read needs only the right to read, of the journal and of its directory."""
    place = lent(place)
    place.put(due(CALLS)[1])
    os.chmod(place.path, 0o444)
    os.chmod(place.folder, 0o555)
    reads(place, b'report\nstatement 0\nadmit 1 2\n', preexec_fn=as_nobody)
    os.chmod(place.path, 0o000)
    refuses(place, '--read', place.path, texts=[place.path.encode(), b'Permission denied'], preexec_fn=as_nobody)


@case
def options_behind_the_name(place):
    """Options stand before or behind the journal's name."""
    data = CALLS
    for words in (('--end', '--bail', place.path), (place.path, '--end', '--bail'), ('--bail', place.path, '--end'),
                  ('--batch', place.path, '--bail', '--end')):
        same('the answers', place.run(*words, data=data), (due(data, bail=True, end=True)[0], b''))
        same('the journal', place.got(), due(data, bail=True, end=True)[1])
        os.remove(place.path)
    place.put(b'admit 0 0\n')
    answers = place.run('--read', '--end', place.path, data=b'report\n')
    for words in ((place.path, '--read', '--end'), ('--end', place.path, '--read')):
        same('the answers', place.run(*words, data=b'report\n'), answers)
    holds('there is no end line', answers[0].endswith(b'end 1 1\n'), answers[0])


@case
def usage_asked_for(place):
    """--help and -h write the usage to standard output, --version a line, and nothing is made."""
    for word in ('--help', '-h'):
        out, said = place.run(word, data=b'admit 0 0\n')
        same('on standard error', said, b'')
        for text in (b'ledger', b'--bail', b'--end', b'--batch', b'--read', b'--load', b'JOURNAL'):
            holds(f'{word}: no {text} in the usage', text in out, out)
    out, said = place.run('--version', data=b'admit 0 0\n')
    holds('the version', re.fullmatch(rb'ledger [0-9]+(\.[0-9]+)+\n', out), out)
    same('on standard error', said, b'')
    same('the files', place.names(), [])


@case
def usage_after_a_mistake(place):
    """An unknown option, a second journal, or --read without one gives the usage on standard error, and does nothing else."""
    for words in (('--frob',), ('-x',), ('-',), ('--',), ('--end=1',), ('--en',), ('--frob', place.path), (place.path, '--frob'), (place.path, place.at('b')),
                  ('--read',), ('--read', place.path, place.at('b')), ('--bail', '--read'), (place.path, place.path), ('--end', place.path, '-v')):
        before = snapshot(place.folder)
        out, said = place.run(*words, data=b'admit 0 0\ncalls\n', cwd=place.folder)
        same(f'{words[-2:]}: the answers', out, b'')
        same(f'{words[-2:]}: the files', snapshot(place.folder), before)
        holds(f'{words[-2:]}: no usage on standard error', b'JOURNAL' in said, said)


# ---- a batch that is a file

LOAD_BOOK = b'fresh 397\nadmit 0 3\nadmit 1 4\nlodge 0 0 cash 600\n'         # 1 February 2021, month 13
GOOD_FILE = month_file(11, (1, [5, 0, 0, 0, 0]), (0, [700, 0, 0, 0, 20]))
BAD_FILES = (month_file(11, (1, [5, 0, 0, 0, 0]), (2, [1] * 5)), month_file(12, (1, [5] * 5)), month_file(11, (0, [1] * 5), (0, [2] * 5)),
             GOOD_FILE + b'\0', GOOD_FILE[:-1], GOOD_FILE[:19], b'', b'\n', b'batch 00\n', bytes(ledger.LOADED - 1), bytes(ledger.LOADED))


def loads(place, data, journal=LOAD_BOOK, words=None):
    """Loads a file behind a journal: its answer alone, its line in the journal if it is accepted, and no lock is left."""
    place.put(journal)
    place.put(data, 'month.batch')
    model = Model(journal)
    answer = ledger.load(model, data)
    words = words or (place.path, '--load', place.at('month.batch'))
    same('the answer', place.run(*words, data=b'admit 9 0\nreport\n'), (answer, b''))
    same('the journal', place.got(), journal + model.appended())
    same('the files', place.names(), ['book.journal', 'month.batch'])


@case
def load(place):
    """--load enters a file as one batch behind the journal and answers it; standard input isn't read, and the next run goes on from there."""
    loads(place, GOOD_FILE)
    holds('it is not kept', place.got().endswith(batch_line(GOOD_FILE)), place.got())
    keeps(place, b'calls\nstatement 0\nstatement 1\nadvance 408 20\nreport\n', journal=place.got())
    loads(place, GOOD_FILE, words=('--load', place.at('month.batch'), place.path))
    journal = joined([b'fresh 397'] + [b'admit %d 3' % p for p in range(64)])
    loads(place, month_file(11, *((p, [p, -1] * 8) for p in range(64))), journal)
    holds('the largest is not kept', place.got().count(b'\nbatch ') == 1, place.got())


@case
def load_a_refused_file(place):
    """A file that is refused is answered with the number and the index, and leaves the journal as it is; an empty one too."""
    for data in BAD_FILES:
        loads(place, data)
        same('the journal', place.got(), LOAD_BOOK)


@case
def load_what_is_no_file(place):
    """A file that is absent, a directory, or too long for a batch is named in a message: nothing is answered, nothing is made or changed."""
    place.put(LOAD_BOOK)
    os.mkdir(place.at('inner'))
    refuses(place, place.path, '--load', place.at('absent'), texts=[place.at('absent').encode(), b'No such file or directory'])
    refuses(place, place.path, '--load', place.at('inner'), texts=[place.at('inner').encode()])
    refuses(place, '--load', place.at('absent'), data=b'', texts=[place.at('absent').encode(), b'No such file or directory'])
    for size in (ledger.LOADED + 1, 65536, 200000):
        place.put(GOOD_FILE.ljust(size, b'\0'), 'long')
        refuses(place, place.path, '--load', place.at('long'), texts=[place.at('long').encode()])
        refuses(place, '--load', place.at('long'), data=b'', texts=[place.at('long').encode()])


@case
def load_as_a_filter(place):
    """With no journal --load enters the file behind standard input, whose lines are answered to its end; nothing is made."""
    for data in (GOOD_FILE,) + BAD_FILES:
        for calls in (LOAD_BOOK, b'', LOAD_BOOK + b'admit 2 5\nfrob', CALLS):
            place.put(data, 'month.batch')
            book = ledger.Filter()
            due_answers = ledger.answers(calls, book) + ledger.load(book, data)
            same('the answers', place.run('--load', place.at('month.batch'), data=calls), (due_answers, b''))
            same('the files', place.names(), ['month.batch'])


@case
def load_that_can_not_be_kept(place):
    """A loaded file whose line can't be appended or forced to disk is not answered, and the journal is as it was."""
    place.put(GOOD_FILE, 'month.batch')
    for calls in (APPEND, FORCE):
        place.put(LOAD_BOOK)
        out, said = place.run(place.path, '--load', place.at('month.batch'), before=fault(place.path, (calls, 'EIO', 1)))
        same('the answers', out, b'')
        same('the journal', place.got(), LOAD_BOOK)
        holds('no message on standard error', said.startswith(b'ledger: ') and place.path.encode() in said, said)
        same('the lock that is left', place.got('book.journal.lock'), None)


@case
def load_of_a_held_journal(place):
    """--load on a journal that another ledger keeps names that one and changes nothing; a journal that does not replay stops it too."""
    place.put(GOOD_FILE, 'month.batch')
    model = Model()
    with place.talk() as first:
        first.ask(LOAD_BOOK, model)
        said = refuses(place, place.path, '--load', place.at('month.batch'))
        same('on standard error', said, f'ledger: {place.path}: kept by process {first.process.pid}, see {place.lock}\n'.encode())
        same('the end of the first', first.end(), (b'', b''))
    place.put(LOAD_BOOK + b'admit 0 3\n')
    refuses(place, place.path, '--load', place.at('month.batch'), texts=[f'ledger: {place.path}: line 5: refused 3\n'.encode()])


@case
def load_usage(place):
    """--load without a file, or with --read, gives the usage on standard error, and does nothing else."""
    place.put(LOAD_BOOK)
    place.put(GOOD_FILE, 'month.batch')
    file = place.at('month.batch')
    for words in (('--load',), (place.path, '--load'), ('--read', place.path, '--load', file), ('--load', file, '--read', place.path),
                  (place.path, place.at('b'), '--load', file), ('--load', file, '--frob')):
        said = refuses_usage(place, words)
        holds(f'{words}: no usage on standard error', b'JOURNAL' in said, said)


def refuses_usage(place, words):
    """A run whose words are wrong: nothing answered, nothing made or changed. Gives what it said."""
    before = snapshot(place.folder)
    out, said = place.run(*words, data=b'admit 5 0\ncalls\n', cwd=place.folder)
    same(f'{words}: the answers', out, b'')
    same(f'{words}: the files', snapshot(place.folder), before)
    return said


# ---- a first stretch, and the line that ends it (paper 02, ask 3)

@case
def old_journal_with_the_retired_role(place):
    """A journal without `role-retired` that admits role 1 is replayed and gone on with: the minimum, the charges, calls and annual runs are as ever.
    It gets the line once, before the first change that is added."""
    for words in ((), ('--batch',)):
        keeps(place, LATER, *words, journal=OLD_BOOK)
        left = place.got()
        holds('the line is not behind what was there', left.startswith(OLD_BOOK + b'role-retired\nsettle 0 11 '), left)
        keeps(place, LATER + b'lodge 0 0 cash 5\nadmit 9 1\nreport\n', *words, journal=left)
        keeps(place, b'lodge 0 1 cash 5\nadmit 9 1\nadmit 9 0\nreport\n', *words, journal=place.got())
        same('how often the line is there', place.got().count(RETIRED), 1)
    out, _ = place.run(place.path, data=b'statement 0\nstatement 1\nadmit 8 1\n')
    same('the answers', out, b'statement 2000001 10 1999991 263 26300000000 2\nstatement 2000000 2000000 0 0 0 1\nrefused 23\n')


@case
def new_journal(place):
    """A new journal begins with `role-retired`, whatever its first change is, and is given to the filter without a refusal."""
    for data in (b'fresh 366\nadmit 0 0\n', b'calls\nadmit 0 1\nadmit 0 0\n', b'role-retired\nrole-retired\nadvance 5 5\n', many(5)):
        for words in ((), ('--batch',), ('--end',)):
            keeps(place, data, *words, end='--end' in words)
            holds('the line is not the first', place.got().startswith(b'role-retired\n') and place.got().count(RETIRED) == 1, place.got())
            holds('the filter refuses', b'refused' not in place.run(data=place.got())[0])
            os.remove(place.path)


@case
def old_journal_that_is_only_asked(place):
    """A journal without `role-retired` stays byte for byte where nothing is accepted: questions, refusals, errors, and that line itself."""
    for data in (b'', b'report\ncalls\nstatement 0\n' + SPECIAL + b'\n', b'admit 9 1\nadmit 0 0\nfrob\nfresh 5\n\n# a comment\n',
                 b'role-retired\nreport\nrole-retired\nrole-retired x\n', b'admit 9 0'):
        for words in ((), ('--batch',), ('--bail',)):
            keeps(place, data, *words, journal=OLD_BOOK, bail='--bail' in words)
            same('the journal', place.got(), OLD_BOOK)
        reads(place, data)


@case
def retired_role_that_is_typed(place):
    """Whoever types is under the new rule: role 1 is refused with 23, behind 1, 3 and 4, on any journal, and nothing is appended."""
    for data in (b'admit 9 1\n', b'admit 9 self-supplied\n', b'admit 64 1\nadmit 0 1\nadmit 9 6\nadmit 9 1\nstatement 9\nreport\n'):
        same('the answers of the filter', place.run(data=data), (filtered(data), b''))
        for journal in (b'', b'# nothing\n', b'role-retired\n', b'fresh 366\nadmit 0 1\n', OLD_BOOK, OLD_BOOK + b'role-retired\n'):
            for words in ((), ('--batch',)):
                keeps(place, data, *words, journal=journal)
                same('the journal', place.got(), journal)


@case
def retired_role_behind_its_end(place):
    """Role 1 behind `role-retired` in a journal stops the ledger with nothing changed; behind a second such line, and where it is read, too."""
    place.put(GOOD_FILE, 'month.batch')
    for journal, said in ((b'role-retired\nadmit 0 1\n', 'line 2: refused 23'),
                          (OLD_BOOK + b'role-retired\nadmit 9 1\nadmit 8 0\n', 'line 8: refused 23'),
                          (b'\n#\nrole-retired\n\nadmit 9 self-supplied\nadm', 'line 5: refused 23'),
                          (b'role-retired\nrole-retired\nfresh 366\nadmit 0 1\n', 'line 4: refused 23'),
                          (b'admit 0 1\nadmit 0 1\n', 'line 2: refused 3'),
                          (b'admit 0 1\nfresh 5\n', 'line 2: error 2 fresh is not the first call'),
                          (b'role-retired\nadmit 0 0\nfresh 5\n', 'line 3: error 3 fresh is not the first call'),
                          (b'role-retired 1\n', 'line 1: error 1 too many words'), (b'role-retire\n', 'line 1: error 1 no such call')):
        place.put(journal)
        for words in ((place.path,), ('--batch', place.path), ('--read', place.path), (place.path, '--load', place.at('month.batch'))):
            refuses(place, *words, texts=[f'ledger: {place.path}: {said}\n'.encode()])


@case
def end_of_the_first_stretch_that_is_typed(place):
    """`role-retired` from standard input is neither answered nor kept, and it counts as a line; with more words it is an error."""
    data = b'role-retired\nfresh 366\nrole-retired\nadmit 0 0\n\trole-retired \r# again\nrole-retired 1\nadmit 1 1\nrole-retired#\nreport\nrole-retired\n'
    same('the answers of the filter', place.run('--end', data=data), (filtered(data, end=True), b''))
    for words in ((), ('--batch',)):
        keeps(place, data, '--end', *words, end=True)
        same('the journal', place.got(), b'role-retired\nfresh 366\nadmit 0 0\n')
        reads(place, b'role-retired\nreport\nrole-retired x\nadmit 1 2\nrole-retired', '--end', end=True)
        keeps(place, b'role-retired\nadmit 9 2\nrole-retired\nadmit 8 2\nrole-retired', '--end', *words, journal=OLD_BOOK, end=True)
        same('how often the line is there', place.got().count(RETIRED), 1)
        os.remove(place.path)
    with place.talk() as talk:
        for byte in b'role-retired\ncalls\n':
            talk.send(bytes([byte]))
            time.sleep(0.003)
        same('the answers to single bytes', talk.end(), (b'calls 0\n', b''))


@case
def end_of_the_first_stretch_in_a_journal(place):
    """`role-retired` in a journal is no kept call, so that `fresh` may follow it; a second one is passed over; blanks and comments stand beside it."""
    for journal in (b'role-retired\n', b'role-retired\nrole-retired\n', b'#\n\n role-retired \t# here\r\n', ledger.MARK + b'role-retired\n',
                    b'calls\nrole-retired\nreport\n'):
        keeps(place, b'report\nadmit 1 1\nfresh 366\nfresh 5\nadmit 1 2\nreport\n', journal=journal)
    for journal in (b'role-retired\nfresh 366\nadmit 0 0\n', b'fresh 366\nadmit 0 1\nrole-retired\nadmit 3 0\nrole-retired\nadmit 4 0\n',
                    OLD_BOOK + b'role-retired\n', OLD_BOOK + b'role-retired\nrole-retired\n', b'role-retired\n' + many(3000)):
        keeps(place, b'admit 5 2\nadmit 6 1\nreport\n', journal=journal)
        holds('another line is added', place.got() == journal + b'admit 5 2\n', place.got())
        reads(place, b'report\nadmit 6 1\n')


@case
def torn_end_of_the_first_stretch(place):
    """A part of `role-retired` behind an old journal is dropped like any rest, and the line is written with the next change; behind the whole line
    the rest alone is dropped, also where a new journal has no call yet."""
    data = b'report\nadmit 9 1\nadmit 9 2\nreport\n'
    for journal, rest in ((OLD_BOOK, b'r'), (OLD_BOOK, b'role-ret'), (OLD_BOOK, b'role-retired'), (OLD_BOOK + b'role-retired\n', b'lodge 0 0 ca'),
                          (OLD_BOOK + b'role-retired\n', b'role-ret'), (b'role-retired\nadmit 0 0\n', b'role-retired'), (b'role-retired\n', b'fre'),
                          (b'\nrole-retired\n#\n', b'fresh 366')):
        for words in ((), ('--batch',)):
            place.put(journal + rest)
            answers, left = due(data, journal)
            said = (ledger.dropped(place.path, rest) + '\n').encode()
            same('the answers', place.run(place.path, *words, data=data), (answers, said))
            same('the journal', place.got(), left)
            same('how often the line is there', place.got().count(RETIRED), 1)
        place.put(journal + rest)
        reads(place, b'report\n')
        place.put(journal + rest)
        same('the answers to questions', place.keep(b'report\n'), (due(b'report\n', journal)[0], said))
        same('the journal after questions', place.got(), journal)


@case
def failing_first_addition(place):
    """Where `role-retired` and the first change can't be appended or forced to disk, nothing is answered and nothing of them is left."""
    for calls in (APPEND, FORCE):
        for words in ((), ('--batch',)):
            for journal, data in ((OLD_BOOK, LATER), (OLD_BOOK, b'admit 9 0\n'), (b'', b'calls\nfresh 366\nadmit 0 0\n')):
                place.put(journal)
                with Talk(fault(place.path, (calls, 'EIO', 1)) + [place.command, *words, place.path]) as talk:
                    out, said = talk.stops(data)
                failed(place, journal, data, out, said, 0)
                keeps(place, data, *words, journal=place.got())


@case
def first_addition_at_the_file_size_limit(place):
    """Where only a part of `role-retired` and the first change fits, that part is cut off; where both fit, they are kept, and not what follows."""
    first, data = b'role-retired\nadmit 9 0\n', b'calls\nadmit 9 0\nadmit 8 0\n'
    for more in (0, 1, 7, 12, 13, 14, 20, len(first) - 1, len(first)):
        def limit():
            signal.signal(signal.SIGXFSZ, signal.SIG_IGN)
            resource.setrlimit(resource.RLIMIT_FSIZE, (len(OLD_BOOK) + more,) * 2)
        place.put(OLD_BOOK)
        with place.talk(preexec_fn=limit, restore_signals=False) as talk:
            out, said = talk.stops(data)
        failed(place, OLD_BOOK, data, out, said, int(more == len(first)))


@case
def order_of_the_first_addition(place):
    """`role-retired` and the first change that is added to an old journal have one append and one force, before its answer; with --batch the part."""
    data = LATER + b'lodge 0 0 cash 5\nlodge 0 1 cash 5\n'
    changes = due(data, OLD_BOOK)[1].count(b'\n') - OLD_BOOK.count(b'\n') - 1
    counts = in_order(place, [place.path], data, OLD_BOOK)
    same('appends and forces', (counts['append'], counts['force']), (changes, changes))
    counts = in_order(place, ['--batch', place.path], data, OLD_BOOK)
    same('appends and forces of a part', (counts['append'], counts['force']), (1, 1))


@case
def load_behind_a_first_stretch(place):
    """--load on a journal without `role-retired` adds that line and the batch's; for those with role 1 too; a refused file leaves it as it is."""
    some = month_file(11, (0, [2000001, 0, 0, 0, 0]), (1, [5, 0, 0, 0, 0]))
    loads(place, some, OLD_BOOK)
    same('the journal', place.got(), OLD_BOOK + b'role-retired\n' + batch_line(some))
    loads(place, some, place.got())
    same('the journal of the second', place.got(), OLD_BOOK + b'role-retired\n' + batch_line(some) * 2)
    for data in (month_file(11, (0, [5] * 5), (9, [1] * 5)),) + BAD_FILES[1:]:
        loads(place, data, OLD_BOOK)
        same('the journal of a refused one', place.got(), OLD_BOOK)


# ---- leaving participants (paper 02, ask 4)

@case
def kept_deletions(place):
    """Accepted deletions are kept as `delete` and the number, refused ones and lines that are no call are not; the next start has the status, the
    calls and what follows from them, wherever the first run ended."""
    for words in ((), ('--batch',)):
        keeps(place, LEAVING, *words, journal=LEAVING_BOOK)
        kept = place.got()[len(LEAVING_BOOK):].split(b'\n')
        deletions = [b'delete 2', b'delete 1', b'delete 0 # outlives 1 October']
        same('the deletions in the journal', [line for line in kept if b'delete' in line], deletions)
        lines = LEAVING.split(b'\n')[:-1]
        for n in range(1, len(lines)):
            place.put(LEAVING_BOOK)
            for part in (lines[:n], lines[n:]):
                keeps(place, joined(part), *words, journal=place.got())
            same(f'the deletions of two runs, {n} lines in the first', [line for line in place.got().split(b'\n') if b'delete' in line],
                 deletions)
    same('the answers of the filter', place.run(data=LEAVING_BOOK + LEAVING), (filtered(LEAVING_BOOK + LEAVING), b''))


@case
def deletions_by_hand(place):
    """Answers worked out by hand: 700 called on 31 August and firm from 11 September on; a fifth call refused until 10 September; 2,600,000 called on
    21 September, which outlives the next amount of 2,500,000."""
    place.put(LEAVING_BOOK)
    out, said = place.keep(LEAVING)
    same('on standard error', said, b'')
    answers = [line for line in out.decode().split('\n') if not line.startswith(('report', 'participant', ' '))]
    same('the answers', answers, [
        'refused 13', 'deletion 700 1', 'refused 24', 'refused 14', 'opened 1', 'refused 13', 'annual 2500000 1', 'annual 401 2', 'refused 25',
        'refused 2', 'refused 1', 'error 12 too many words', 'opened 10', 'deletion 401 1', 'recorded 2600000', 'opened 10', 'deletion 2600000 1',
        'refused 14', 'calls 8', 'opened 11', 'refused 24', 'statement 2600000 2000000 600000 2 200000000 2',
        'statement 401 0 401 22 2200000000 5', 'statement 700 0 700 22 2200000000 1', 'called 2600001 600001 650', 'called 701 701 650',
        'opened 334', 'refused 25', 'refused 24', 'calls 10', ''])


@case
def deletion_that_is_refused_at_first(place):
    """A deletion that is refused with 13 is not kept and leaves no status: in that run or the next an annual run is made, and it is tried again."""
    for more in (b'annual 1\n', b'', b'settle 1 2021-05 399 0 0 0 0\n'):
        for words in ((), ('--batch',)):
            keeps(place, b'delete 1\nadvance 2021-09-01 1\ndelete 1\n', *words, journal=LEAVING_BOOK)
            holds('a refused one is kept', b'delete' not in place.got(), place.got())
            keeps(place, more + b'delete 1\nadvance 2021-09-11 100\ndelete 1\ndelete 1\nannual 1\ncalls\n', *words, journal=place.got())
            same('how often it is there', place.got().count(b'delete 1\n'), 1)
            keeps(place, b'delete 1\nadvance 2022-09-01 1000\nannual 1\nreport\n', journal=place.got())


@case
def journal_with_deletions(place):
    """A journal with deletions is replayed, written in any way, with or without `role-retired` before them, and is gone on with or read."""
    start = b'fresh 2021-08-31\nadmit 0 3\nadmit 3 1\nsettle 0 2021-05 700 0 0 0 0\n'
    for line in (b'delete 0\n', b'\tdelete  000\t# leaves\r\n', b'delete 0#\n\n', b'# it leaves\ndelete 00000000000000000000000000000\n'):
        for journal in (start + line, start + b'role-retired\n' + line, start + line + b'role-retired\n', ledger.MARK + start + line,
                        start + line + b'delete 3\nadvance 618 99\nadvance 630 99\n', start + line + b'calls\nstatement 0\nreport\n'):
            keeps(place, b'statement 0\ndelete 0\ncalls\nadmit 9 1\nadvance 639 100\nadvance 639 0\nstatement 0\nreport\n', journal=journal)
            keeps(place, b'delete 0\nadvance 2022-09-01 1000\nannual 0\nreport\n', journal=place.got())
            reads(place, b'report\ncalls\ndelete 0\n')


@case
def journal_with_a_refused_deletion(place):
    """A deletion in a journal that is refused or no call stops the ledger with nothing changed, kept or read."""
    start = b'fresh 2021-08-31\nadmit 0 3\n'
    place.put(GOOD_FILE, 'month.batch')
    for journal, said in ((start + b'delete 0\ndelete 0\n', 'line 4: refused 24'), (start + b'delete 1\n', 'line 3: refused 2'),
                          (start + b'delete 64\nadmit 1 0\n', 'line 3: refused 1'), (LEAVING_BOOK + b'delete 1\n', 'line 14: refused 13'),
                          (b'fresh 577\nadmit 0 3\ndelete 0\n', 'line 3: refused 24'), (b'fresh 639\nadmit 0 3\ndelete 0\nadm', 'line 3: refused 24'),
                          (start + b'delete 0\nadvance 609 1\nannual 0\n', 'line 5: refused 25'),
                          (start + b'delete\n', 'line 3: error 3 too few words'), (start + b'delete 0 0\n', 'line 3: error 3 too many words'),
                          (start + b'delete x\nx', 'line 3: error 3 not a number'),
                          (start + b'delete 0\nfresh 5\n', 'line 4: error 4 fresh is not the first call')):
        place.put(journal)
        for words in ((place.path,), ('--batch', place.path), ('--read', place.path), (place.path, '--load', place.at('month.batch'))):
            refuses(place, *words, texts=[f'ledger: {place.path}: {said}\n'.encode()])


@case
def torn_deletion(place):
    """A part of a deletion's line behind a journal is dropped, the whole without its newline too: the participant isn't under deletion then."""
    data = b'annual 2\nadvance 2021-09-01 1\nannual 2\ndelete 2\nannual 2\nreport\n'
    for rest in (b'd', b'delete', b'delete ', b'delete 2', b'delete 2\r'):
        for words in ((), ('--batch',)):
            place.put(LEAVING_BOOK + rest)
            answers, left = due(data, LEAVING_BOOK)
            same('the answers', place.run(place.path, *words, data=data), (answers, (ledger.dropped(place.path, rest) + '\n').encode()))
            same('the journal', place.got(), left)
        place.put(LEAVING_BOOK + rest)
        reads(place, b'report\n')
    keeps(place, b'calls\ndelete 2', journal=LEAVING_BOOK)
    same('a last line without newline', place.got(), LEAVING_BOOK)


@case
def deletion_and_read(place):
    """--read makes no deletion, refused or not, and says that it is no question."""
    place.put(LEAVING_BOOK)
    reads(place, b'delete 2\nreport\ndelete 1\ndelete 99\ndelete\ndelete 2 2\nstatement 2\ncalls\n', '--end', end=True)
    place.put(due(LEAVING, LEAVING_BOOK)[1])
    reads(place, b'report\ncalls\nstatement 0\ndelete 0\nannual 0\n')


@case
def failing_deletion(place):
    """A deletion whose line can't be appended or forced to disk is not answered and is cut off; at the next start it is not made, and may be asked
    for again. With --batch none of its part is answered."""
    data = b'calls\nlodge 2 0 cash 5\ndelete 2\nannual 2\nstatement 2\n'
    for calls in (APPEND, FORCE):
        for error in ('EIO', 'ENOSPC'):
            place.put(LEAVING_BOOK)
            with Talk(fault(place.path, (calls, error, 2)) + [place.command, place.path]) as talk:
                out, said = talk.stops(data)
            failed(place, LEAVING_BOOK, data, out, said, 1)
            holds('its line is there', b'delete' not in place.got(), place.got())
            keeps(place, b'advance 2021-09-01 1\nannual 2\ndelete 2\ndelete 2\nannual 2\nreport\n', journal=place.got())
        place.put(LEAVING_BOOK)
        with Talk(fault(place.path, (calls, 'EIO', 1)) + [place.command, '--batch', place.path]) as talk:
            out, said = talk.stops(data[6:])
        same('the answers to a part', out, b'')
        failed(place, LEAVING_BOOK, data[6:], out, said, 0)


@case
def deletion_at_the_file_size_limit(place):
    """Where only a part of a deletion's line fits, that part is cut off; where all of it fits, it is kept, and not what follows."""
    data = b'calls\ndelete 2\nlodge 2 0 cash 5\n'
    for more in (0, 1, 6, 8, 9):
        def limit():
            signal.signal(signal.SIGXFSZ, signal.SIG_IGN)
            resource.setrlimit(resource.RLIMIT_FSIZE, (len(LEAVING_BOOK) + more,) * 2)
        place.put(LEAVING_BOOK)
        with place.talk(preexec_fn=limit, restore_signals=False) as talk:
            out, said = talk.stops(data)
        failed(place, LEAVING_BOOK, data, out, said, int(more == len(b'delete 2\n')))


@case
def order_of_a_deletion(place):
    """The answer to a deletion is written after its line was appended and forced to disk; with --batch after that of the part."""
    changes = due(LEAVING, LEAVING_BOOK)[1].count(b'\n') - LEAVING_BOOK.count(b'\n')
    counts = in_order(place, [place.path], LEAVING, LEAVING_BOOK)
    same('appends and forces', (counts['append'], counts['force']), (changes, changes))
    counts = in_order(place, ['--batch', place.path], LEAVING, LEAVING_BOOK)
    same('appends and forces of a part', (counts['append'], counts['force']), (1, 1))


@case
def deletion_killed(place):
    """Killed before any of its calls of the system around a deletion, the ledger leaves it kept or not made, and starts again with that."""
    data = b'calls\ndelete 2\nstatement 2\ndelete 0\n'
    for journal, rest in ((LEAVING_BOOK, b''), (LEAVING_BOOK, b'delete 2'), (LEAVING_BOOK.replace(b'role-retired\n', b''), b'')):
        for step in STEPS:
            for when in (1, 2, 3, 4):
                place.put(journal + rest)
                try:
                    restarts(place, journal, rest, data, killed(place, step, when, data))
                    keeps(place, b'advance 2021-09-01 1\nannual 2\ndelete 2\nannual 0\ncalls\nreport\n', journal=place.got())
                except Wrong as wrong:
                    raise Wrong(f'killed before {step} {when}, {len(journal)} bytes of journal: {wrong}')
                os.remove(place.path)


@case
def deletion_behind_a_first_stretch(place):
    """A deletion as the first change behind a journal without `role-retired` gets that line before it; one with role 1 may leave too."""
    journal = OLD_BOOK + b'settle 1 11 2000001 0 0 0 0\nadvance 608 1000\n'
    for words in ((), ('--batch',)):
        keeps(place, b'delete 9\ncalls\ndelete 1\ndelete 1\nadvance 609 1\nannual 1\nannual 0\nadmit 9 1\nreport\n', *words, journal=journal)
        holds('the line is not before it', place.got().startswith(journal + b'role-retired\ndelete 1\nadvance 609 1\n'), place.got())
        keeps(place, b'delete 0\nadvance 639 100\nstatement 0\nstatement 1\nadvance 974 1000\nannual 0\nannual 1\n', *words, journal=place.got())
        same('how often the line is there', place.got().count(RETIRED), 1)
        keeps(place, b'delete 9\ndelete 64\ndelete\n', *words, journal=journal)
        same('the journal after refusals', place.got(), journal)


# ---- calls counted by participant (paper 02, ask 6)

@case
def counts_by_participant(place):
    """Each statement has its participant's own count, worked out by hand: two minimums of a first stretch, and the four calls of another participant,
    of which a fifth is refused. So it is after the calls, at the next start, and where the journal is read; a refused file, whose first part would
    call, changes none."""
    asked = b'statement 0\nstatement 1\nstatement 2\ncalls\n'
    due_counts = b'''statement 2000000 0 2000000 21 2100000000 1
statement 2000000 2000000 0 0 0 1
statement 0 0 0 0 0 4
calls 6
'''
    settlements = joined(b'settle 2 2020-12 %d 0 0 0 0' % n for n in (5, 6, 7, 8, 9))
    refused = batch_line(month_file(11, (1, (9000000, 0, 0, 0, 0)), (2, (9, 0, 0, 0, 0))))
    called = b'called 5 5 407\ncalled 6 6 407\ncalled 7 7 407\ncalled 8 8 407\nrefused 13\nrefused 13 1\n'
    for words in ((), ('--batch',)):
        place.put(OLD_BOOK)
        same('the answers', place.run(place.path, *words, data=settlements + refused + asked), (called + due_counts, b''))
        same('the answers of the next start', place.run(place.path, *words, data=asked), (due_counts, b''))
        same('the answers of a reader', place.run('--read', place.path, data=asked), (due_counts, b''))
        keeps(place, asked + b'advance 408 100\n' + asked + b'report\n', *words, journal=place.got())


# ---- what the five users ask for

SOME_RUN = month_file(12, (1, (256, 0, 0, 0, 0)))
USERS = b'''fresh 2021-03-01 # the first of March
admit 0 supplier# entry 17
admit 1 producer \t#\t entry 18\t \r
admit 1 producer # refused, so not kept
lodge 0 0 cash 20000.00 ### receipt # 4711 #
lodge 0 1 cash 5,00 # no call
lodge 0 1 letter 0.50 2021-03-01 2021-04-30 #
release 0 1 0.50 # \t\r
settle 1 2021-01 1.00 -0.50 0 0 0.01#\x00\x7f\xff\xe2\x82\xac
settle 1 2020-12 -1.00 0 0 0 0
file 0 # asked
releasable 0 0
today
advance 2021-03-04 # no budget
advance 2021-03-12
''' + batch_line(SOME_RUN).upper().replace(b'BATCH', b'batch')[:-1] + b''' # run 7
lodge 1 0 cash 100 # ''' + b'x' * 998 + b''' y
lodge 1 1 cash 100 # ''' + b'x' * 1001 + b'''
file 1
releasable 1 1
today
statement 1
report
'''
USERS_KEPT = b'''role-retired
fresh 425 # the first of March
admit 0 0 # entry 17
admit 1 3 # entry 18
lodge 0 0 cash 2000000 # ## receipt # 4711 #
lodge 0 1 letter 50 425 485
release 0 1 50
settle 1 12 100 -50 0 0 1 # \x00\x7f\xff\xe2\x82\xac
settle 1 11 -100 0 0 0 0
advance 428 29219 # no budget
advance 436 29219
''' + batch_line(SOME_RUN)[:-1] + b''' # run 7
lodge 1 0 cash 100 # ''' + b'x' * 998 + b''' y
lodge 1 1 cash 100 # ''' + b'x' * 1000 + b'\n'


@case
def references(place):
    """The comment behind an accepted call is kept behind its numeric form, without the blanks around it and cut behind 1,000 bytes; that of a refused
    call, of a question and of a line that is no call is not. Amounts in euros are kept in cents, and an advance without a budget with the last day's
    number. The next start replays it all."""
    for words in ((), ('--batch',)):
        keeps(place, USERS, *words, journal=b'')
        same('the journal, by hand', place.got(), USERS_KEPT)
        keeps(place, b'report\nfile 0\nfile 1\nadvance 2021-03-13 # next\n', *words, journal=USERS_KEPT)
    reads(place, b'file 0\nfile 1\nfile 64\nfile 2\nreleasable 0 0\nreleasable 1 8\ntoday\nadvance 2021-03-20\nlodge 1 2 cash 1.00\n')
    same('the answers of the filter', place.run(data=USERS), (filtered(USERS), b''))


def shown(place, data, *words, **ways):
    """Runs with options that change how answers are shown: the filter, a kept journal and a reader; what is kept is the same."""
    same('the answers of the filter', place.run(*words, data=data), (ledger.answers(data, ledger.Filter(**ways)), b''))
    place.put(b'')
    same('the answers', place.run(*words, place.path, data=data), (ledger.answers(data, Model(**ways)), b''))
    same('the journal', place.got(), due(data)[1])
    book = ledger.Read(**ways)
    book.replay(place.got())
    same('the answers of a reader', place.run('--read', place.path, *words, data=data), (ledger.answers(data, book), b''))
    place.put(b'')


@case
def words_beside_numbers(place):
    """With --words what a number means stands behind each answer, and the wrong word behind an error."""
    long = b'lodge 0 0 cash ' + b'0' * 4075 + b'5,00'
    for data in (USERS, CALLS, LEAVING, joined([b'x' * 41, long, long + b'0', long + b'0' + b' ' * 4, b'settle 0 13' + b' 7' * 500 + b' 7.0'])):
        shown(place, data, '--words', words=True)


@case
def report_as_values(place):
    """With --csv a report is lines of comma-separated values."""
    shown(place, USERS, '--csv', csv=True)
    shown(place, b'report\n' + CALLS, '--csv', '--words', words=True, csv=True)


@case
def items_and_extracts(place):
    """The items of a participant, its extract and the items of the extract are the reference's; nothing is made or changed."""
    for journal in (due(USERS + b'advance 2021-09-01\nannual 0\nannual 1\nadvance 2021-10-01\n')[1], due(CALLS)[1], due(LEAVING, LEAVING_BOOK)[1],
                    due(LATER, OLD_BOOK)[1]):
        place.put(journal)
        for p in sorted(Model(journal).people()):
            items, own = accounts.items(p, journal), accounts.extract(p, journal)
            place.put(own, 'extract')
            before = snapshot(place.folder)
            number = str(p)
            same('the items', place.run('--items', number, place.path), (items, b''))
            same('the items as values', place.run('--items', number, place.path, '--csv'), (accounts.items(p, journal, True), b''))
            same('the extract', place.run('--extract', number, place.path), (own, b''))
            same('the items of the extract', place.run('--audit', place.at('extract')), (items, b''))
            same('the items of the extract as values', place.run('--audit', place.at('extract'), '--csv'), (accounts.items(p, journal, True), b''))
            same('the files', snapshot(place.folder), before)


# ---- all of them

def tried(command, name, function, where):
    """Runs a case in a folder of its own. Gives what differs, or None, and prints how it went."""
    what = None
    with tempfile.TemporaryDirectory(prefix='case-', dir=where, ignore_cleanup_errors=True) as folder:
        os.chmod(folder, 0o755)
        try:
            function(Place(command, os.path.realpath(folder)))
            print(f'case {name}: ok', flush=True)
        except Skip as skip:
            print(f'case {name}: skipped, {skip}', flush=True)
        except (Wrong, OSError, ValueError) as wrong:
            what = str(wrong) if isinstance(wrong, Wrong) else f'{type(wrong).__name__}: {wrong}'
            print(f'case {name}: {what}'[:1500].replace(folder, 'FOLDER'), flush=True)
        for inner, _, _ in os.walk(folder):         # so that it can be removed
            os.chmod(inner, 0o755)
    return what


def run(command, where=None, only=None):
    """Runs the cases, all or those whose names are given. Gives how many differ."""
    chosen = [(name, function) for name, function in CASES if not only or name in only]
    wrong = [name for name, function in chosen if tried(command, name, function, where)]
    print(f'{len(chosen)} cases, {len(wrong)} differ', flush=True)
    return len(wrong)
