"""Checks a unit: the numbers E401 to E424. Of all faults the first is told, parts before the whole."""
from .check_declarations import Declarations
from .check_expressions import CheckedExpressions
from .check_statements import Statements
from .check_vectors import Vectors
from .limits import check_limits
from .numbers import BUILT_IN
from .refusals import SourceRefused
from .symbols import FENCES, QUERIES, Function, Pointer, Symbol, VectorType, vector_type
from .tokens import place_of
from .vector_faults import first_fault


class Checker(Statements, Declarations, CheckedExpressions, Vectors):
    """The state of the checker; after `run` also what the later steps need of the unit."""

    def __init__(self, source, tokens, unit, kernel_name):
        self.source, self.tokens, self.unit, self.kernel_name = source, tokens, unit, kernel_name
        self.faults, self.scopes, self.functions = [], [{}], {}
        self.prototypes, self.calls, self.tables = [], [], []
        self.kernels = {item.text for item in unit.parts if item.form == 'function' and item.is_kernel}
        self.function = None
        self.loops = self.switches = 0
        self.depths = {}

    def fault(self, node, number):
        """Notes a fault."""
        self.faults.append((node.last, -self.depths.get(id(node), 0), number, node))

    def place(self, at):
        """The line and the column of a token."""
        return place_of(self.source, self.tokens[at].start if at < len(self.tokens) else len(self.source))

    def measure(self):
        """Notes how deep each node stands."""
        stack = [(self.unit, 1)]
        while stack:
            node, depth = stack.pop()
            self.depths[id(node)] = depth
            stack.extend((part, depth + 1) for part in node.parts)

    def run(self):
        """Checks the unit, and gives the kernel."""
        fault_of_vectors = first_fault(self.unit)
        if fault_of_vectors:
            raise SourceRefused(fault_of_vectors[1], *self.place(fault_of_vectors[0].first))
        self.measure()
        for item in self.unit.parts:
            if item.form == 'function':
                self.define(item)
            elif item.form == 'prototype':
                self.prototype(item)
            else:
                self.declare(item, 'unit')
        self.behind_all()
        if self.faults:
            first = min(self.faults, key=lambda each: each[:3])
            raise SourceRefused(first[2], *self.place(first[3].first))
        kernel = self.functions.get(self.kernel_name)
        if kernel is None or kernel.node is None or not kernel.is_kernel:
            raise SourceRefused(422, *self.place(len(self.tokens)))
        check_limits(self, kernel)
        return kernel

    def number_type(self, spelled):
        """The type that a type node spells, a vector type where one may stand; or None where it is at fault."""
        if not spelled.base.startswith('!'):
            return spelled.base
        vector = vector_type(spelled.base[1:])
        if vector is None:
            self.fault(spelled, 408)
        return vector

    def result_type(self, item):
        """The type of what a function returns."""
        return None if item.result.spelled is None else self.number_type(item.result.spelled)

    def required_sizes(self, item):
        """The sizes that the attributes of a function ask for; the last counts."""
        sizes = None
        for head in item.heads:
            if head.word != '__attribute__':
                continue
            attribute = head.attribute
            for part in attribute.parts:
                self.type_of(part)
            values = [self.constant(part) for part in attribute.parts]
            if any(value is None or value < 1 for value in values):
                self.fault(attribute, 414)
            if attribute.which == 'reqd_work_group_size':
                sizes = values
        return sizes

    def parameter_type(self, parameter, is_kernel):
        """The type of a parameter; that of a pointer is its space, element, whether constant, and components."""
        is_starred = parameter.star is not None
        base, components = self.number_type(parameter.spelled), 0
        if isinstance(base, VectorType):
            base, components = base.element, base.count
        space = parameter.spelled.space or 'private'
        if is_kernel and base is not None:
            if base == 'bool' or parameter.spelled.is_size or (is_starred and space == 'private'):
                self.fault(parameter, 411)
        if not is_starred or base is None:
            return base
        return (space, base, parameter.spelled.is_const, components)

    def prototype(self, item):
        """Checks a prototype."""
        self.required_sizes(item)
        result = self.result_type(item)
        types = [self.parameter_type(each, item.is_kernel) for each in item.parameters.parts]
        self.prototypes.append((item, result, types))
        if item.text not in self.functions:
            found = Function(item.text, None, item.is_kernel, result, item.result.spelled is None)
            found.parameter_types = types
            self.functions[item.text] = found

    def define(self, item):
        """Checks a function with its body."""
        earlier = self.functions.get(item.text)
        is_twice = (earlier is not None and earlier.node is not None) or item.text in self.scopes[0]
        made = self.function = Function(item.text, item, item.is_kernel, None, item.result.spelled is None)
        made.sizes = self.required_sizes(item)
        made.result = self.result_type(item)
        made.is_called = earlier is not None and earlier.is_called
        if not is_twice:
            self.functions[item.text] = made
        self.scopes.append({})
        self.loops = self.switches = 0
        for parameter in item.parameters.parts:
            self.parameter(made, parameter)
        # The block shares the scope of the parameters.
        for statement in item.block.parts:
            self.statement(statement, 'outer', None)
        self.scopes.pop()
        if is_twice:
            self.fault(item, 402)
        if item.text in BUILT_IN or item.text in QUERIES or item.text in FENCES:
            self.fault(item, 402)
        if item.is_kernel and item.result.spelled is not None:
            self.fault(item, 411)
        self.function = None

    def parameter(self, function, node):
        """Declares a parameter of a function."""
        found = self.parameter_type(node, function.is_kernel)
        function.parameter_types.append(found)
        if node.text in self.scopes[-1]:
            self.fault(node, 402)
        if node.star is None:
            symbol = Symbol('scalar', node.text, node, node.spelled.is_const, type=found)
        else:
            symbol = Symbol('pointer', node.text, node, node.star.is_const)
            symbol.root = symbol
            if found is not None:
                symbol.type = Pointer(found[0], found[1], found[2], symbol, (), found[3])
        symbol.function, symbol.slot = function, function.new_slot()
        symbol.is_parameter, symbol.place = True, node.name
        function.variables.append(symbol)
        function.parameters.append(symbol)
        self.scopes[-1][node.text] = symbol

    def reaches(self, callees, first, last):
        """Whether calls lead from one function to another."""
        seen, stack = set(), [first]
        while stack:
            each = stack.pop()
            if each == last:
                return True
            if each not in seen:
                seen.add(each)
                stack.extend(callees.get(each, ()))
        return False

    def behind_all(self):
        """What can be checked only behind the whole unit: recursion, and prototypes."""
        callees = {}
        for caller, callee, _ in self.calls:
            callees.setdefault(caller.text, set()).add(callee)
        for caller, callee, node in self.calls:
            if self.reaches(callees, callee, caller.text):
                self.fault(node, 412)
        for item, result, types in self.prototypes:
            function = self.functions[item.text]
            if function.node is None:
                if function.is_called:
                    self.fault(item, 424)
            elif function.result != result or without_components(function.parameter_types) != without_components(types):
                self.fault(item, 424)


def without_components(types):
    """Types of parameters, where a pointer to vectors counts as one to their components."""
    return [each[:3] if isinstance(each, tuple) else each for each in types]
