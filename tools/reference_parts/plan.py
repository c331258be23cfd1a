"""The text of `plan`: the variables that are kept at a cut, in the order of their declarations."""
from .tree import LOOPS
from .varying import Varying


class Declared:
    """A variable that was declared, with the calls that lead to it, and whether it is kept."""

    def __init__(self, symbol, path):
        self.symbol, self.path, self.is_kept = symbol, path, False


class Plan:
    """The work on one kernel."""

    def __init__(self, checker, kernel):
        self.checker = checker
        Varying(checker)
        self.declared, self.active = [], []
        self.function(kernel, [])
        self.text = ''.join(self.line(each) for each in self.declared if each.is_kept)

    def line(self, each):
        """The line of a variable."""
        places = each.path + [self.checker.place(each.symbol.place)]
        how = 'item' if each.symbol.varies else 'once'
        return '%s %s %s\n' % (how, '/'.join('%d:%d' % place for place in places), each.symbol.text)

    def declare(self, symbol, path):
        """A variable is declared."""
        made = Declared(symbol, path)
        self.declared.append(made)
        self.active.append(made)

    def function(self, function, path):
        """Goes through a function in the place of its call."""
        kept = len(self.active)
        for symbol in function.parameters:
            self.declare(symbol, path)
        for part in function.node.block.parts:
            self.visit(part, path)
        del self.active[kept:]

    def visit(self, node, path):
        """Goes through a node."""
        if node.form == 'declarator':
            self.declarator(node, path)
            return
        kept = len(self.active)
        for part in node.parts:
            self.visit(part, path)
        if node.form in LOOPS or node.form in ('block', 'switch', 'if'):
            del self.active[kept:]
        elif node.form == 'call' and node.kind == 'fence' and node.text == 'barrier':
            for each in self.active:
                each.is_kept = True
        elif node.form == 'call' and node.kind == 'function':
            self.function(self.checker.functions[node.text], path + [self.checker.place(node.first)])

    def declarator(self, node, path):
        """Goes through one name of a declaration."""
        for part in node.parts:
            self.visit(part, path)
        symbol = node.symbol
        if symbol.kind in ('scalar', 'pointer'):
            self.declare(symbol, path)
        elif symbol.kind == 'vector':
            for component in symbol.components:
                self.declare(component, path)
