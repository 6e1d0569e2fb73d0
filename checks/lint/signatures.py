"""Whether goblin.h declares the calls of goblin_c with the types that they are defined with, and arguments of one type in their order.

Contracts hold for each value of an argument's type, so they let a call take 16 bits where C passes 32, or the width of a number where C
passes its offset, and the linker knows no types. In C a slice is a pointer and a length, and bytes may be void.
"""
import re
from collections import Counter

from crates import text_of, tracked
from rattle import code_of

HEADER = 'faces/c/goblin.h'
# (strings are blank in what is read of Rattle's code)
DEFINED = re.compile(r'\bpub extern +fn (\w+)(?:<[^>]*>)?\(([^)]*)\)(?: -> (\w+))?')
DECLARED = re.compile(r'\b(\w+) (goblin_\w+)\(([^()]*)\)')
PARAMETER = re.compile(r"(\w+): (?:(&)(?:'\w+ )?(mut )?)?(\[)?(\w+)")
ARGUMENT = re.compile(r'(.*?)(\w+)')


def type_in_c(name):
    """The type for C of a number or a struct in Rattle."""
    if re.fullmatch('[ui](8|16|32|64)', name):
        return f'{"u" * (name[0] == "u")}int{name[1:]}_t'
    if name == 'usize':
        return 'size_t'
    return f'goblin{re.sub("([A-Z])", lambda found: "_" + found[1].lower(), name[len("Goblin"):])}_t' if name.startswith('Goblin') else name


def types_of(result, arguments):
    """The types of a call's result and arguments, each with its name if there are others of its type. Lengths need none."""
    count = Counter(kind for kind, _ in arguments)
    return [result, *(f'{kind} {name}' if count[kind] > 1 and kind != 'size_t' else kind for kind, name in arguments)]


def expected(parameters, result):
    """The types for C of a call's result and arguments, with void for bytes."""
    arguments = []
    for name, reference, mutable, bracket, own in PARAMETER.findall(parameters):
        kind = 'void' if bracket and own == 'u8' else type_in_c(own)
        constant = bool(reference) and not mutable
        arguments += [(f'{"const " * constant}{kind}{" *" * bool(reference)}', name)] + [('size_t', '')] * bool(bracket)
    return types_of(type_in_c(result) if result else 'void', arguments)


def stated(parameters, result):
    """The types of a declaration in C."""
    found = [ARGUMENT.fullmatch(one.strip()) for one in re.sub(r'\s+', ' ', parameters).split(',') if one.strip() != 'void']
    return types_of(result, [(re.sub(r'\buint8_t \*', 'void *', one[1]).strip(), one[2]) for one in found])


def faults():
    text = re.sub(r'/\*.*?\*/|^ *#(?:[^\n]*\\\n)*[^\n]*', '', text_of(HEADER), flags=re.DOTALL | re.MULTILINE)
    declared = {name: stated(parameters, result) for result, name, parameters in DECLARED.findall(text)}
    defined = {name: expected(parameters, result) for path in tracked('crates/goblin_c/src/*.rt')
               for name, parameters, result in DEFINED.findall(code_of(path))}
    wrong = [f'{HEADER}: {name} is declared as {declared.get(name)}, and defined as {defined.get(name)}'
             for name in sorted({**declared, **defined}) if declared.get(name) != defined.get(name)]
    return f'the types of {len(defined)} calls for C', wrong if defined else ['no call for C was found']
