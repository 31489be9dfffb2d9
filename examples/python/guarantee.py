"""The C library (include/guarantee.h) for Python, by ctypes: Book('PATH/libguarantee.so') is a book in words of its own.

ctypes cuts a number that is too large for its type, so each argument is held to its type's bounds first, as the ledger does.
"""
import ctypes
import struct as structs

WORDS = 6210
EARLIER_LAYOUT = 101                                 # what `check` answers to a book that an earlier version saved
KINDS = {1: 'called', 2: 'covered', 3: 'recorded'}
U8, U64, U32, I64, SIZE = ctypes.c_uint8, ctypes.c_uint64, ctypes.c_uint32, ctypes.c_int64, ctypes.c_size_t


def struct(name, *fields):
    """A struct of the header: its refusal and 64-bit fields, of which `total` is signed."""
    return type(name, (ctypes.Structure,), {'_fields_': [(f, I64 if f == 'total' else U64) for f in ('refusal',) + fields]})


SETTLED = struct('Settled', 'kind', 'total', 'asked', 'last_free_day')
BATCH = struct('Batch', 'parts', 'pair')
ANNUAL = struct('Annual', 'amount', 'months')
DELETION = struct('Deletion', 'amount', 'called')
ADVANCED = struct('Advanced', 'opened')
STATEMENT = struct('Statement', 'firm', 'cover', 'shortfall', 'days_charged', 'accrued_mills', 'calls_made')
COUNT = struct('Count', 'count')
DAY = struct('Day', 'day')
SPECIAL = struct('Special', 'cents')

# What each function on words returns, and what it takes behind the words.
FUNCTIONS = {'fresh': (U64, U32), 'admit': (U64, U64, U64), 'lodge_cash': (U64, U64, U64, U64), 'lodge_letter': (U64, U64, U64, U64, U32, U32),
             'release': (U64, U64, U64, U64), 'settle': (SETTLED, U64, U32, list), 'batch': (BATCH, bytes), 'annual_run': (ANNUAL, U64),
             'delete': (DELETION, U64), 'advance': (ADVANCED, U32, U64), 'statement': (STATEMENT, U64), 'calls_made': (COUNT,), 'today': (DAY,),
             'check': (U64,)}
LENT = {list: I64, bytes: U8}
BOUNDS = {U8: (0, 255), U64: (0, 2 ** 64 - 1), U32: (0, 2 ** 32 - 1), I64: (-2 ** 63, 2 ** 63 - 1)}


def held(number, kind):
    least, most = BOUNDS[kind]
    return kind(max(least, min(number, most)))


def lent(numbers, kind=I64):
    """A list as its address and its length; an empty one has an address too."""
    values = (kind * max(len(numbers), 1))(*(held(number, kind) for number in numbers))
    return values, SIZE(len(numbers))


class Book:
    """Words, and the functions on them: book.admit(0, 2), book.settle(0, 10, [1, 2, 3, 4, 5]).total, book.batch(b'..').parts and so on."""

    def __init__(self, library, length=WORDS):
        self.library = ctypes.CDLL(library)
        self.words, self.length = (U64 * length)(), length

    def __getattr__(self, name):
        if name not in FUNCTIONS:
            raise AttributeError(name)
        result, *kinds = FUNCTIONS[name]
        function = getattr(self.library, 'guarantee_' + name)
        function.restype = result

        def call(*arguments):
            passed = [self.words, SIZE(self.length)]
            for argument, kind in zip(arguments, kinds, strict=True):
                passed += lent(argument, LENT[kind]) if kind in LENT else [held(argument, kind)]
            return function(*passed)
        return call

    def save(self):
        """The bytes of a saved book: each word with its least byte first."""
        return structs.pack(f'<{self.length}Q', *self.words)

    def load(self, saved):
        """Takes a saved book, and says whether it is one; if not, this book is as before. One that an earlier version saved raises ValueError."""
        function = self.library.guarantee_check
        function.restype = U64
        count, rest = divmod(len(saved), 8)
        read = (U64 * max(count, 1))(*structs.unpack(f'<{count}Q', saved[:8 * count]))
        found = None if rest else function(read, SIZE(count))
        if found == EARLIER_LAYOUT:
            raise ValueError('the book was saved by an earlier version, in layout 1 of 6,147 words, and this one cannot use it: its calls are to be '
                             'made anew on a fresh book')
        if found != 0 or count != self.length:
            return False
        self.words[:] = read
        return True

    def special(self, medium, low, marks, *semesters):
        function = self.library.guarantee_special
        function.restype = SPECIAL
        lists = [lent(medium), lent(low), lent(marks, U64)] + [lent(numbers) for numbers in semesters]
        return function(*(part for pair in lists for part in pair))
