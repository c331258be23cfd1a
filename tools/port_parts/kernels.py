"""What the kernels of a source have as parameters."""
from . import types
from .notes import Notes
from .preprocess import expanded
from .reader import Reader
from .tokens import cut


def kept(words):
    """The words of a build that say what the preprocessor is to know."""
    found, is_next = [], False
    for word in words:
        if is_next or word.startswith(('-D', '-I', '-U')):
            found.append(word)
            is_next = word in ('-D', '-I', '-U')
    return found


def parameter_symbols(path, words):
    """By kernel, its parameters."""
    tokens, _ = cut(expanded(path, kept(words)), path)
    return {part.symbol.name: part.parameters
            for part in Reader(tokens, Notes(path)).unit() if part.kind == 'function' and part.is_kernel}


def parameters(path, words):
    """By kernel, the types of its parameters."""
    return {name: [symbol.type for symbol in found] for name, found in parameter_symbols(path, words).items()}


def element_types(path, words):
    """By kernel, the type of the numbers to which each parameter leads, or None. A vector or a structure as a parameter
    counts as many times as it has numbers."""
    found = {}
    for name, kinds in parameters(path, words).items():
        found[name] = [own for kind in kinds for own in of_parameter(kind)]
    return found


def of_parameter(kind):
    """The types that one parameter counts as."""
    if isinstance(kind, types.Pointer):
        leaves = {leaf.name for leaf, _ in types.leaves(types.element(kind.to))}
        return [leaves.pop() if len(leaves) == 1 else None]
    if isinstance(kind, (types.Vector, types.Struct)):
        return [None] * len(list(types.leaves(kind)))
    return [None]
