"""One source, ported."""
import sys

from .layout import Page
from .notes import Notes, Refused
from .preprocess import expanded
from .reader import Reader
from .tokens import cut
from .unit import Unit

sys.setrecursionlimit(20000)


class Ported:
    """A source as `wgcc` takes it: its text, what was changed, and the places that are not those of the source."""

    def __init__(self, path, words, kernels=None):
        self.notes = Notes(path)
        tokens, left = cut(expanded(path, words), path)
        for directive in left:
            self.notes.add('%s left out' % ' '.join(directive.text.split()[:2]), directive)
        reader = Reader(tokens, self.notes)
        parts = self.needed(reader, reader.unit(), kernels)
        unit = Unit(reader, self.notes)
        text = unit.write(parts)
        page = Page()
        page.write(text)
        self.text, self.places, self.arguments = page.text(), page.places(), unit.arguments_of_kernels

    def needed(self, reader, parts, kernels):
        """The parts that the kernels need; without names of kernels all, of which none may be refused."""
        if kernels is None:
            if reader.refused:
                raise reader.refused[0].refused
            return parts
        for symbol in reader.refused:
            if symbol.name in kernels:
                raise symbol.refused
            self.notes.add('%s left out, which is not needed' % symbol.name, symbol.token)
        functions = {part.symbol.name: part.symbol for part in parts if part.kind == 'function'}
        for name in kernels:
            if name not in functions:
                raise Refused(None, 'there is no kernel %s' % name)
        wanted = [functions[name] for name in kernels]
        for symbol in wanted:
            wanted += [called for caller, called, _ in reader.calls
                       if caller is not None and caller.symbol is symbol and called not in wanted]
        reader.symbols = [symbol for symbol in reader.symbols if self.is_of(symbol, wanted)]
        return [part for part in parts if part.kind != 'function' or part.symbol in wanted]

    def is_of(self, symbol, wanted):
        """Whether a symbol belongs to a function that is wanted, or to none."""
        if symbol.kind == 'function':
            return symbol in wanted
        return symbol.function is None or symbol.function.symbol in wanted
