"""Which variables vary: the least relation that the rules ask for, found by going round until nothing changes."""
from .check_vectors import chosen_of
from .closures import is_variable
from .numbers import is_number
from .symbols import VectorType
from .tree import all_nodes, bare


class Varying:
    """The work on all functions of a unit."""

    def __init__(self, checker):
        self.functions = checker.functions
        self.has_changed = True
        defined = [function for function in self.functions.values() if function.node is not None]
        self.returning = {function.text for function in defined
                          if any(node.form == 'return' for node in all_nodes(function.node.block))}
        while self.has_changed:
            self.has_changed = False
            for function in defined:
                self.visit(function)

    def visit(self, function):
        """Goes once through a function."""
        self.function, self.conditions, self.active = function, [], []
        for symbol in function.parameters:
            symbol.depth = 0
            self.active.append(symbol)
        for part in function.node.block.parts:
            self.statement(part)
        for symbol in function.variables:
            if symbol.has_exit and symbol.is_assigned:
                self.varies(symbol)

    def varies(self, symbol):
        """A variable varies."""
        if not symbol.varies:
            symbol.varies = self.has_changed = True

    def result_varies(self):
        """The result of the function varies."""
        if not self.function.result_varies:
            self.function.result_varies = self.has_changed = True

    def is_under(self, depth):
        """Whether a condition that varies is around, of those behind the first so many."""
        return any(self.conditions[depth:])

    def leave(self):
        """A `break`, `continue` or `return`. The result counts as a variable that each `return` assigns."""
        for symbol in self.active:
            if self.is_under(symbol.depth):
                symbol.has_exit = True
        if self.is_under(0) and self.function.text in self.returning and not self.function.is_void:
            self.result_varies()

    def assign(self, symbol, does_vary):
        """A variable is assigned something that varies, or does not."""
        symbol.is_assigned = True
        if does_vary or self.is_under(symbol.depth):
            self.varies(symbol)

    def scope(self, parts):
        """Goes through statements in a scope of their own."""
        kept = len(self.active)
        for part in parts:
            self.statement(part)
        del self.active[kept:]

    def under(self, condition, scopes):
        """Goes through scopes under a condition."""
        self.conditions.append(condition)
        for parts in scopes:
            self.scope(parts)
        self.conditions.pop()

    # Statements

    def statement(self, node):
        """Goes through a statement."""
        if node.form == 'declare':
            for each in node.declarators:
                self.declarator(each)
        elif node.form == 'block':
            self.scope(node.parts)
        elif node.form == 'simple':
            if node.part is not None:
                (self.vector_statement if node.part.is_vector_statement else self.value)(node.part)
        elif node.form == 'if':
            self.under(self.value(node.test), [[node.yes]] + ([[node.no]] if node.no else []))
        elif node.form in ('while', 'do', 'for'):
            self.loop(node)
        elif node.form == 'switch':
            self.under(self.value(node.value), [node.body])
        elif node.form in ('case', 'default'):
            self.statement(node.body)
        elif node.form in ('break', 'continue'):
            self.leave()
        elif node.form == 'return':
            if node.part is not None and self.value(node.part):
                self.result_varies()
            self.leave()

    def declarator(self, node):
        """Goes through one name of a declaration."""
        symbol, initialiser = node.symbol, node.initialiser
        if symbol.kind == 'vector':
            values = [False] * symbol.type.count if initialiser is None else self.vector(initialiser)
            for component, does_vary in zip(symbol.components, values):
                self.declare(component, does_vary)
            return
        does_vary = False
        if initialiser is not None and initialiser.form == 'list':
            for part in initialiser.parts:
                self.value(part)
        elif initialiser is not None:
            does_vary = self.value(initialiser)
        if symbol.kind in ('scalar', 'pointer'):
            self.declare(symbol, does_vary)

    def declare(self, symbol, does_vary):
        """A variable is declared."""
        symbol.depth = len(self.conditions)
        if does_vary:
            self.varies(symbol)
        self.active.append(symbol)

    def loop(self, node):
        """Goes through a loop."""
        kept = len(self.active)
        if node.form == 'for':
            self.statement(node.before)
        self.conditions.append(node.test_varies)
        if node.test is not None and self.value(node.test) and not node.test_varies:
            node.test_varies = self.has_changed = True
            self.conditions[-1] = True
        self.scope([node.body])
        if node.form == 'for' and node.further:
            self.value(node.further)
        self.conditions.pop()
        del self.active[kept:]

    # Vectors

    def vector_statement(self, node):
        """Goes through an assignment to a vector."""
        left, right = node.parts
        target, chosen = chosen_of(left)
        if target.form != 'variable':
            self.vector(target)
        values = self.components(right, left.value_type.count)
        if target.form == 'variable':
            for number, does_vary in zip(chosen, values):
                symbol = target.symbol.components[number]
                self.assign(symbol, does_vary or (node.mark != '=' and symbol.varies))

    def components(self, node, count):
        """Which components of an operand vary."""
        return self.vector(node) if isinstance(node.value_type, VectorType) else [self.value(node)] * count

    def vector(self, node):
        """Which components of a vector vary."""
        count = node.value_type.count
        if node.form == 'paren':
            return self.vector(node.part)
        if node.form == 'variable':
            return [component.varies for component in node.symbol.components]
        if node.form == 'postfix' and node.mark == '.':
            values = self.vector(node.part)
            return [values[number] for number in node.chosen]
        if node.form == 'postfix':
            parts = [self.value(node.base), self.value(node.index)]
            return [any(parts) or node.base.value_type.space != 'constant'] * count
        if node.form == 'unary':
            if node.mark != '*':
                return self.vector(node.part)
            return [self.value(node.part) or node.part.value_type.space != 'constant'] * count
        if node.form == 'cast':
            values = []
            for item in node.items:
                values += self.components(item, 1)
            return values * count if len(values) == 1 else values
        parts = node.arguments if node.form == 'call' else node.parts
        return [any(each) for each in zip(*[self.components(part, count) for part in parts])]

    # Expressions

    def value(self, node):
        """Goes through an expression, and says whether it varies."""
        if node.alias is not None:
            return self.value(node.alias)
        if node.form in ('number', 'truth'):
            return False
        if node.form in ('paren', 'cast'):
            return self.value(node.part)
        reads = {'variable': self.variable, 'choice': self.choice, 'assignment': self.assignment,
                 'unary': self.unary, 'postfix': self.postfix, 'call': self.call}
        if node.form in reads:
            return reads[node.form](node)
        if node.form == 'binary' and node.mark in ('&&', '||'):
            return self.choice(node)
        values = [self.value(part) for part in node.parts]
        return any(values) if node.form in ('binary', 'comma') else False

    def variable(self, node):
        """A name."""
        symbol = node.symbol
        if symbol is None or symbol.kind == 'array':
            return False
        return symbol.space != 'constant' if symbol.kind == 'object' else symbol.varies

    def choice(self, node):
        """`? :`, `&&` or `||`: what is behind the first part stands under it."""
        test = self.value(node.parts[0])
        self.conditions.append(test)
        others = [self.value(part) for part in node.parts[1:]]
        self.conditions.pop()
        return test or any(others)

    def operand(self, node):
        """Whether a target varies that is read too."""
        return node.symbol.varies if is_variable(node) else True

    def assignment(self, node):
        """An assignment."""
        target = bare(node.parts[0])
        if not is_variable(target):
            self.value(node.parts[0])
        does_vary = self.value(node.parts[1])
        if node.mark != '=':
            does_vary = does_vary or self.operand(target)
        if is_variable(target):
            self.assign(target.symbol, does_vary)
        return does_vary

    def step(self, node):
        """`++` or `--`."""
        target = bare(node.part)
        self.value(node.part)
        does_vary = self.operand(target)
        if is_variable(target):
            self.assign(target.symbol, does_vary)
        return does_vary

    def unary(self, node):
        """An operator in front."""
        if node.mark in ('++', '--'):
            return self.step(node)
        if node.mark == 'sizeof':
            return False
        if node.mark == '&':
            element = bare(node.part)
            return any([self.value(element.base), element.index is not None and self.value(element.index)])
        does_vary = self.value(node.part)
        if node.mark == '*' and is_number(node.value_type):
            return does_vary or node.part.value_type.space != 'constant'
        return does_vary

    def postfix(self, node):
        """An element, or an operator behind."""
        if node.mark in ('++', '--'):
            return self.step(node)
        does_vary = any([self.value(node.base), node.index is not None and self.value(node.index)])
        if is_number(node.value_type):
            return does_vary or node.base.value_type.space != 'constant'
        return does_vary

    def call(self, node):
        """A call."""
        if node.kind == 'fence':
            return False
        values = [self.value(each) for each in node.arguments]
        if node.kind == 'query':
            return any(values) or node.text in ('get_global_id', 'get_local_id')
        if node.kind == 'built-in':
            return any(values)
        function = self.functions[node.text]
        for symbol, does_vary in zip(function.parameters, values):
            if does_vary:
                self.varies(symbol)
        return function.result_varies
