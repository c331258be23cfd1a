"""What has to be done in front of the rest of an expression."""
from . import types
from .types import Scalar


class Step:
    """One thing that is done first: as an expression, and as a statement."""

    def __init__(self, expression, statement=None):
        self.expression = expression
        self.statement = statement if statement is not None else [expression, ';']


class Names:
    """Names that the source does not have."""

    def __init__(self, taken):
        self.taken, self.next = set(taken), 1

    def new(self):
        """A new name."""
        while 'port_%d' % self.next in self.taken:
            self.next += 1
        self.next += 1
        return 'port_%d' % (self.next - 1)

    def like(self, name):
        """A name like another one that the source does not have."""
        while name in self.taken:
            name += '_'
        return name


class Context:
    """The steps of a statement, or of a part that may not be evaluated, and the variables that they need."""

    def __init__(self, names, variables=None):
        self.names, self.steps, self.is_part = names, [], variables is not None
        self.variables = [] if variables is None else variables

    def part(self):
        """The context of a part that is evaluated under a condition."""
        return Context(self.names, self.variables)

    def variable(self, kind, length=None):
        """A new variable of a type of numbers or vectors, or an array of so many."""
        name = self.names.new()
        self.variables.append('%s %s%s;' % (types.spelled(kind) if not isinstance(kind, str) else kind, name,
                                           '' if length is None else '[%d]' % length))
        return name

    def keep(self, text, kind):
        """Keeps a number in a new variable; its name."""
        name = self.variable(kind if isinstance(kind, Scalar) else Scalar('int'))
        self.steps.append(Step([name, ' = ', text]))
        return name

    def ahead(self, text):
        """The text with the steps in front of it, as one expression in parentheses; the text alone without steps."""
        if not self.steps:
            return text
        found = ['(']
        for step in self.steps:
            found += [step.expression, ', ']
        self.steps = []
        return found + [text, ')']
