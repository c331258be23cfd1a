"""The part of the checker for declarations."""
from .numbers import BUILT_IN, is_number
from .symbols import FENCES, QUERIES, Pointer, Symbol, VectorType, is_pointer

MOST_ELEMENTS = 1048576
MOST_DIMENSIONS = 3


class Initialiser:
    """The initialiser of a declarator: its parts, their types, and whether no part is at fault."""

    def __init__(self, node):
        self.node = node
        self.is_there = node is not None
        self.is_list = self.is_there and node.form == 'list'
        self.parts = node.parts if self.is_list else [node] if self.is_there else []
        self.types = []

    def type(self):
        """The type of an initialiser that is no list."""
        return self.types[0] if self.types and not self.is_list else None


def product(lengths):
    """The number of elements of an array."""
    count = 1
    for length in lengths:
        count *= length
    return count


class Declarations:
    """Checks declarations, and makes the symbols of what they declare."""

    def declare(self, node, where):
        """Checks a declaration: at the outer level (unit), or as the checks of statements say."""
        base = self.number_type(node.spelled)
        for each in node.declarators:
            if isinstance(base, VectorType):
                self.vector_declarator(node, each, base, where)
            else:
                self.declarator(node, each, base, where)

    def declarator(self, node, each, base, where):
        """Checks one name of a declaration without vectors."""
        is_fine = True
        for length in each.lengths:
            if length is not None and self.type_of(length) is None:
                is_fine = False
        initialiser = Initialiser(each.initialiser)
        initialiser.types = [self.type_of(part) for part in initialiser.parts]
        is_fine = is_fine and None not in initialiser.types
        numbers = set()
        if self.is_taken(each.text, where):
            numbers.add(402)
        if is_fine and initialiser.is_there and not self.is_fitting(node, each, base, initialiser):
            numbers.add(403)
        if each.star is not None and each.lengths:
            numbers.add(403)
        numbers |= self.space_faults(node, each, where, initialiser, is_fine)
        lengths = self.lengths_of(each, initialiser, numbers)
        if numbers:
            self.fault(each, min(numbers))
        symbol = self.symbol_of(node, each, base, lengths, initialiser)
        self.enter(each, symbol)
        if where == 'unit' and symbol.kind in ('array', 'object') and initialiser.is_there:
            symbol.values = [self.constant(part) for part in initialiser.parts]

    def is_taken(self, text, where):
        """Whether a name is declared twice."""
        if text in self.scopes[-1]:
            return True
        return where == 'unit' and (text in self.functions or text in BUILT_IN or text in QUERIES or text in FENCES)

    def is_fitting(self, node, each, base, initialiser):
        """Whether an initialiser without faults fits."""
        if each.lengths and each.star is None:
            return initialiser.is_list and all(is_number(found) for found in initialiser.types)
        if initialiser.is_list:
            return False
        found = initialiser.type()
        if each.star is None:
            return is_number(found)
        if not is_pointer(found):
            return False
        return base is None or (found.space == (node.spelled.space or 'private') and found.element == base)

    def space_faults(self, node, each, where, initialiser, is_fine):
        """What is at fault in the space of a declarator, and E413 for a pointer without an initialiser."""
        space, numbers = node.spelled.space, set()
        if each.star is None:
            in_kernel = where == 'outer' and self.function is not None and self.function.is_kernel
            if space == 'local' and (not in_kernel or initialiser.is_there):
                numbers.add(409)
            if where != 'unit' and space in ('global', 'constant'):
                numbers.add(409)
        if where == 'unit':
            if space != 'constant' or each.star is not None or not initialiser.is_there:
                numbers.add(410)
            elif is_fine and any(self.constant(part) is None for part in initialiser.parts):
                numbers.add(410)
        if each.star is not None and not initialiser.is_there:
            numbers.add(413)
        return numbers

    def lengths_of(self, each, initialiser, numbers):
        """The lengths of an array; adds E414 to the numbers where one is at fault."""
        lengths = []
        for length in each.lengths:
            if length is None:
                is_open = len(each.lengths) == 1 and initialiser.is_list
                lengths.append(len(initialiser.parts) if is_open else 1)
                if not is_open:
                    numbers.add(414)
                continue
            value = self.constant(length)
            if value is None or value < 1:
                numbers.add(414)
                value = 1
            lengths.append(value)
        count = product(lengths)
        if len(lengths) > MOST_DIMENSIONS or count > MOST_ELEMENTS:
            numbers.add(414)
        if lengths and initialiser.is_list and len(initialiser.parts) > count:
            numbers.add(414)
        return lengths

    def symbol_of(self, node, each, base, lengths, initialiser):
        """What a declarator declares."""
        spelled = node.spelled
        space = spelled.space or 'private'
        if each.star is not None:
            symbol = Symbol('pointer', each.text, each, each.star.is_const)
            symbol.root = initialiser.type().root if is_pointer(initialiser.type()) else symbol
            if base is not None:
                symbol.type = Pointer(space, base, spelled.is_const, symbol.root)
        elif each.lengths:
            symbol = Symbol('array', each.text, each, spelled.is_const)
            symbol.space, symbol.element, symbol.root, symbol.count = space, base, symbol, product(lengths)
            if base is not None:
                symbol.type = Pointer(space, base, spelled.is_const, symbol, lengths[1:])
        elif space != 'private':
            symbol = Symbol('object', each.text, each, spelled.is_const)
            symbol.space, symbol.element, symbol.root, symbol.count = space, base, symbol, 1
            symbol.type = base
        else:
            symbol = Symbol('scalar', each.text, each, spelled.is_const, type=base)
        return symbol

    def enter(self, each, symbol):
        """Makes a symbol visible from here on."""
        symbol.function, symbol.place = self.function, each.name
        function = self.function
        if function is None:
            self.tables.append(symbol)
        else:
            symbol.slot = function.new_slot()
            if symbol.kind in ('scalar', 'pointer'):
                function.variables.append(symbol)
            else:
                self.enter_array(symbol)
        each.symbol = symbol
        self.scopes[-1].setdefault(each.text, symbol)

    def enter_array(self, symbol):
        """Notes an array or object of the function."""
        self.function.arrays.append(symbol)
        if symbol.space == 'local':
            self.function.locals.append(symbol)

    # Vectors

    def vector_declarator(self, node, each, vector, where):
        """Checks one name of a declaration of vectors."""
        space = node.spelled.space
        initialiser = Initialiser(each.initialiser)
        for length in each.lengths:
            if length is not None:
                self.type_of(length)
        if initialiser.is_there:
            self.vector_type_of(initialiser.node)
        # A vector variable is declared by its components, whose names no other name has.
        name = each.text if each.lengths or each.star is not None else each.text + '.'
        numbers = {402} if name in self.scopes[-1] else set()
        if each.lengths:
            symbol = self.vector_array(node, each, vector, numbers)
            in_kernel = where == 'outer' and self.function is not None and self.function.is_kernel
            if (space == 'local' and not in_kernel) or (self.function is not None and space in ('global', 'constant')):
                numbers.add(409)
        else:
            symbol = self.vector_variable(node, each, vector)
        if numbers:
            self.fault(each, min(numbers))
        symbol.function, symbol.place = self.function, each.name
        if self.function is not None and symbol.kind == 'array':
            symbol.slot = self.function.new_slot()
            self.enter_array(symbol)
        each.symbol = symbol
        self.scopes[-1].setdefault(name, symbol)

    def vector_array(self, node, each, vector, numbers):
        """The array of vectors that a declarator declares."""
        length = None if each.lengths[0] is None else self.constant(each.lengths[0])
        if length is None or length < 1:
            numbers.add(414)
            length = 1
        if length * vector.count > MOST_ELEMENTS:
            numbers.add(414)
        symbol = Symbol('array', each.text, each, node.spelled.is_const)
        symbol.space, symbol.element, symbol.root = node.spelled.space or 'private', vector.element, symbol
        symbol.count = length * vector.count
        symbol.type = Pointer(symbol.space, vector.element, symbol.is_const, symbol, (), vector.count)
        return symbol

    def vector_variable(self, node, each, vector):
        """The variable of a vector type that a declarator declares: a variable for each component."""
        symbol = Symbol('vector', each.text, each, node.spelled.is_const, type=vector, components=[])
        for number in range(vector.count):
            component = Symbol('scalar', '%s.%d' % (each.text, number), each, symbol.is_const, type=vector.element)
            component.function, component.place = self.function, each.name
            if self.function is not None:
                component.slot = self.function.new_slot()
                self.function.variables.append(component)
            symbol.components.append(component)
        return symbol
