"""The shared library by ctypes: where it is, its calls and its structs. The rest of the package is written over `call` and `found`."""
import ctypes
import mmap
import operator
import os
import struct
from typing import Any, List, Optional, Sequence, Tuple

from ._interface import CALLS, INTERFACE, STRUCTS
from ._refused import Refused

OK, END = 0, 1
NAME = f'libgoblin_c.so.{INTERFACE}'
TYPES = {'p': ctypes.c_void_p, 'z': ctypes.c_size_t, 'Q': ctypes.c_uint64, 'q': ctypes.c_int64, 'I': ctypes.c_uint32, 'H': ctypes.c_uint16,
         'B': ctypes.c_uint8, 'b': ctypes.c_bool}


class Record:
    """A struct of goblin.h: its fields, each with its code in the module `struct`, in the machine's byte order. `names` are its fields in the
    order of comparisons."""

    def __init__(self, fields: Tuple[str, ...], codes: str, order: Tuple[int, ...] = ()) -> None:
        self.fields, self.codes, self.names = fields, codes, tuple(fields[index] for index in order)
        self.struct = struct.Struct(f'@{codes}0Q')
        self.size, self.unpack = self.struct.size, self.struct.unpack
        self.buffer = ctypes.c_char * self.size
        # Of each field its code and its offset.
        self.places = {field: (code, struct.calcsize(f'@{codes[:index]}0{code}')) for index, (field, code) in enumerate(zip(fields, codes))}

    def pack(self, values: Sequence[Any]) -> bytes:
        """Returns the bytes of the struct. Raises a ValueError if a number does not fit its field, and a TypeError if a field is no integer."""
        try:
            return self.struct.pack(*values)
        except struct.error as error:
            for field, value in zip(self.fields, values):
                if not hasattr(value, '__index__'):
                    raise TypeError(f'{field} is a {type(value).__name__}, and must be an integer') from None
            raise ValueError(f'a field does not fit its number of bits: {error}') from None

    def pack_item(self, item: Any) -> bytes:
        """Returns the bytes of the struct of an item."""
        return self.pack([getattr(item, field) for field in self.fields])

    def class_of(self, item: Any, has_table: bool) -> Any:
        """Returns the class of those items whose fields are where the library wrote them. In a table the index follows, and the array has the
        table."""
        fields = [(field, TYPES[code]) for field, code in zip(self.fields, self.codes)]
        own = {'__slots__': (), '__module__': item.__module__, '_fields_': [*fields, *[('index', ctypes.c_uint64)] * has_table]}
        table = {'table': property(operator.attrgetter('_b_base_.table'))} if has_table else {}
        kind: Any = type(ctypes.Structure)
        return kind(item.__name__, (item, ctypes.Structure), {**own, **table})

    def column(self, field: str, structs: memoryview) -> List[int]:
        """Returns a field of some structs."""
        code, offset = self.places[field]
        size = struct.calcsize(code)
        return structs.cast(code)[offset // size::self.size // size].tolist()

    def dtype(self) -> Any:
        """Returns the struct as a dtype of numpy."""
        import numpy
        kinds = {'Q': 'u8', 'q': 'i8', 'I': 'u4', 'H': 'u2', 'B': 'u1'}
        codes, offsets = zip(*(self.places[name] for name in self.names))
        return numpy.dtype({'names': self.names, 'formats': [kinds[code] for code in codes], 'offsets': offsets, 'itemsize': self.size})


RECORDS = {name: Record(*declared) for name, declared in STRUCTS.items()}
REFUSAL, RANGE, HEADER = RECORDS['refusal'], RECORDS['range'], RECORDS['header']
# A file: where its bytes are, how many there are, and its header.
FILE = Record(('bytes', 'len', *HEADER.fields), f'QQ{HEADER.codes}')


def where() -> str:
    """Returns where the library is: GOBLIN_ELF_LIBRARY, in this folder, or if it was taken from there, where the system's loader looks."""
    own = os.path.join(os.path.dirname(os.path.abspath(__file__)), NAME)
    return os.environ.get('GOBLIN_ELF_LIBRARY') or (own if os.path.exists(own) else NAME)


def load() -> ctypes.CDLL:
    """Loads the library. Raises an ImportError if there is none, or if it is of another interface than this package."""
    path = where()
    is_named = bool(os.environ.get('GOBLIN_ELF_LIBRARY'))
    try:
        library = ctypes.CDLL(path)
        version = library.goblin_version()
    except (OSError, AttributeError) as error:
        if is_named:
            raise ImportError(f'GOBLIN_ELF_LIBRARY is {path}, which can not be loaded as {NAME}: {error}') from None
        raise ImportError(f'goblin_elf needs {NAME}, and can not load it ({error}): install it, or set GOBLIN_ELF_LIBRARY') from None
    if version != INTERFACE or not all(hasattr(library, f'goblin_{name}') for name in CALLS) or not is_laid_out(library):
        what = 'has other calls or structs' if version == INTERFACE else f'has interface {version}, not {INTERFACE}'
        raise ImportError(f'{"GOBLIN_ELF_LIBRARY is " * is_named}{path}{", which" * is_named} {what}: this goblin_elf needs another version of it')
    if is_named and os.sep in path and not os.path.isabs(path):
        # (for processes that start in another folder, as workers of goblin-scan do)
        os.environ['GOBLIN_ELF_LIBRARY'] = os.path.join(os.getcwd(), path)
    return library


def is_laid_out(library: ctypes.CDLL) -> bool:
    """Whether each struct of the library is laid out as it is here. In each the library fills the bytes of a field with its number."""
    filled = (ctypes.c_char * 4096)()  # (a wrong library may have larger structs)
    sizes = [record.size for record in [*RECORDS.values(), FILE]]
    at = 8 * len(sizes)
    size = at + sum(sizes[:-1])
    if library.goblin_layout(filled, ctypes.c_size_t(size)) != size or list(struct.unpack_from(f'@{len(sizes)}Q', filled)) != sizes:
        return False
    for record in RECORDS.values():
        marks = [int.from_bytes(bytes([number]) * struct.calcsize(code), 'little') for number, code in enumerate(record.codes, 1)]
        if list(record.struct.unpack_from(filled, at)) != marks:
            return False
        at += record.size
    return True


LIBRARY = load()


def declared(name: str, codes: str) -> Any:
    """Returns a call of the library as a function whose arguments ctypes converts."""
    function = LIBRARY[f'goblin_{name}']
    function.restype, function.argtypes = TYPES.get(codes[0]), [TYPES[code] for code in codes[1:].strip('-')]
    return function


FUNCTIONS = {name: declared(name, codes) for name, codes in CALLS.items()}


# (for this module alone: what other ones say of their arguments holds for functions that are looked up by a dot)
GET_BUFFER, RELEASE_BUFFER = ctypes.pythonapi['PyObject_GetBuffer'], ctypes.pythonapi['PyBuffer_Release']


class File:
    """The bytes of a file: any object with a buffer, which is kept and whose memory can't move while this or a part of it lives."""

    def __init__(self, buffer: Any) -> None:
        try:
            self.view = memoryview(buffer).cast('B')
        except TypeError as error:
            raise TypeError(f'{error}: Elf takes the bytes of a file, and Elf.open its path') from None
        # (slices of these two are bytes, which are made faster than views)
        self.source: Any = buffer if type(buffer) in (bytes, mmap.mmap) else self.view
        # (a view that can't be written may be of a bytearray, which can)
        self.is_fixed = self.view.readonly and type(self.view.obj) in (bytes, mmap.mmap)
        words = (ctypes.c_ssize_t * 16)()  # a Py_buffer, which begins with the address; `view` goes on holding the memory
        GET_BUFFER(ctypes.py_object(self.view), words, 0)
        self.address, self.length = words[0], len(self.view)
        RELEASE_BUFFER(words)

    def __reduce__(self) -> Any:
        raise TypeError('a file, its tables and their items can not be pickled: pickle bytes(elf.bytes), or item.as_dict()')

    def part(self, offset: int, size: int) -> memoryview:
        """Returns some bytes, without a copy."""
        return self.view[offset:offset + size].toreadonly()


def call(name: str, *arguments: Any) -> bool:
    """Makes a call, and returns whether its status is GOBLIN_OK: else it is GOBLIN_END. Raises Refused at a refusal."""
    why = REFUSAL.buffer()
    status = FUNCTIONS[name](*arguments, why)
    if status > END:
        raise refused(why)
    return bool(status == OK)


def refused(why: Any) -> Refused:
    """Returns a refusal, with the library's text."""
    kind, item, *numbers, offset = REFUSAL.unpack(why)
    return Refused(text('refusal_to_str', why), kind, item, tuple(numbers), offset)


def found(name: str, record: Record, *arguments: Any) -> Optional[Tuple[int, ...]]:
    """Makes a call whose result is one struct, and returns its fields, or `None` at GOBLIN_END."""
    result = record.buffer()
    return record.unpack(result) if call(name, *arguments, result) else None


def text(name: str, *arguments: Any) -> str:
    """Makes a call that writes a text, for which 160 bytes are enough."""
    result = ctypes.create_string_buffer(160)
    FUNCTIONS[name](*arguments, result, 160)
    return result.value.decode('utf-8', 'replace')


def unsigned(number: int, bits: int = 64) -> int:
    """Returns a number that the library takes. Raises a ValueError if it does not fit, since ctypes would cut it."""
    number = operator.index(number)
    if not 0 <= number < 1 << bits:
        raise ValueError(f'{number} is not an unsigned number of {bits} bits')
    return number
