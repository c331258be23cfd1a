"""Makes of each node a function of a frame, for the parts of a kernel that no barrier interrupts.

A frame is a list: the item, the value that is returned, and a slot for each variable. The function of an expression
gives its value, a pointer being an object and a number of elements. That of a statement gives 0, or what it ends:
1 for `break`, 2 for `continue` and 3 for `return`."""
from .closures_of_statements import StatementClosures, converted
from .memory import load, query, store
from .numbers import OPERATORS, SHIFTS, SIZE, WRAP, built_in, is_number
from .symbols import Pointer, VectorType
from .tree import all_nodes, bare


def is_variable(node):
    """Whether a target is a variable that a frame keeps."""
    return node.form == 'variable' and node.symbol.kind in ('scalar', 'pointer')


def updated(node, name):
    """The function of the old value and the right side that a compound assignment is."""
    mark, computed_in = node.mark[:-1], node.computed_in
    operator, wrap, back = OPERATORS[mark, computed_in], WRAP[computed_in], WRAP[name]
    if mark in SHIFTS:
        return lambda old, right: back(operator(wrap(old), right))
    return lambda old, right: back(operator(wrap(old), wrap(right)))


def stepped(value, by, computed_in, name):
    """A value after `++` or `--`."""
    return WRAP[name](WRAP[computed_in](value + by))


def note_result_types(function):
    """Writes the type of the result to each `return` of a function."""
    if not function.has_result_types:
        function.has_result_types = True
        for node in all_nodes(function.node.block):
            if node.form == 'return':
                node.result_type = function.result


class Closures(StatementClosures):
    """Makes functions of nodes. Where all accesses are steps, the nodes that hold one are walked step by step."""

    def __init__(self, checker, steps_at_accesses):
        self.functions, self.steps_at_accesses = checker.functions, steps_at_accesses
        self.ready = set()

    # Which nodes are walked step by step

    def prepare(self, function):
        """Marks the nodes of a function, and of those that it calls."""
        if function.text not in self.ready:
            self.ready.add(function.text)
            self.mark(function.node.block)

    def mark(self, node):
        """Marks a node and its parts."""
        has_access = False
        for part in node.parts:
            self.mark(part)
            has_access = has_access or part.has_access
        if node.alias is not None:
            alias = node.alias
            alias.has_barrier, alias.closure, alias.address_closure = node.has_barrier, None, None
            alias.has_access = alias.form == 'postfix' and (has_access or is_shared(alias.base))
            has_access = alias.has_access
            alias.is_stepped = alias.has_barrier or (self.steps_at_accesses and has_access)
        node.has_access = self.is_access(node) or has_access
        node.is_stepped = node.has_barrier or (self.steps_at_accesses and node.has_access)
        node.closure = node.address_closure = None

    def is_access(self, node):
        """Whether a node itself is an access to shared memory, or calls a function with one."""
        if node.form == 'variable':
            symbol = node.symbol
            return symbol is not None and symbol.kind == 'object' and symbol.space == 'local'
        if node.form == 'call' and node.kind == 'function':
            called = self.functions[node.text]
            self.prepare(called)
            return called.node.block.has_access
        if isinstance(node.value_type, VectorType):
            return node.form in ('postfix', 'unary')
        if node.form == 'postfix' and node.mark == '[]':
            return is_number(node.value_type) and is_shared(node.base)
        if node.form == 'unary' and node.mark == '*':
            return is_number(node.value_type) and is_shared(node.part)
        return False

    # Values

    def value(self, node):
        """The function of a node."""
        if node.closure is None:
            node.closure = self.made(node)
        return node.closure

    def made(self, node):
        """Makes the function of a node."""
        if node.alias is not None:
            return self.value(node.alias)
        if node.is_vector_statement or (node.form == 'declarator' and node.symbol.kind == 'vector'):
            walk = self.vector_steps

            def vector_statement(frame):
                for _ in walk(node, frame):
                    pass
                return 0
            return vector_statement
        return getattr(self, 'value_of_' + node.form)(node)

    def address(self, node):
        """The function that gives the object and the number of an element."""
        node = bare(node)
        if node.form == 'variable':
            symbol, slot = node.symbol, node.symbol.slot
            if symbol.space == 'constant':
                return lambda frame: (symbol.object, 0)
            return lambda frame: (frame[slot], 0)
        if node.form == 'unary':
            return self.value(node.part)
        base, stride, plus = self.value(node.base), node.base.value_type.stride(), node.plus
        index = self.value(node.index) if node.index is not None else lambda frame: 0

        def element(frame):
            thing, at = base(frame)
            return thing, at + index(frame) * stride + plus
        return element

    def loaded(self, node):
        """The function that loads the element that a node is; the element's pointer where it is a row."""
        address, name = self.address(node), node.value_type
        if not is_number(name):
            return address

        def load_it(frame):
            thing, at = address(frame)
            return load(frame[0], thing, at, name, node)
        return load_it

    def value_of_number(self, node):
        """The function of a number."""
        value = node.value
        return lambda frame: value

    value_of_truth = value_of_number

    def value_of_paren(self, node):
        """The function of an expression in parentheses."""
        return self.value(node.part)

    def value_of_variable(self, node):
        """The function of a name."""
        if is_variable(node):
            slot = node.symbol.slot
            return lambda frame: frame[slot]
        return self.address(node) if node.symbol.kind == 'array' else self.loaded(node)

    def value_of_cast(self, node):
        """The function of a cast."""
        return converted(self.value(node.part), node.part.value_type, node.value_type)

    def value_of_comma(self, node):
        """The function of the operator `,`."""
        left, right = self.value(node.parts[0]), self.value(node.parts[1])

        def comma(frame):
            left(frame)
            return right(frame)
        return comma

    def value_of_choice(self, node):
        """The function of `? :`."""
        test = self.value(node.parts[0])
        yes, no = [converted(self.value(part), part.value_type, node.value_type) for part in node.parts[1:]]
        return lambda frame: yes(frame) if test(frame) else no(frame)

    def value_of_binary(self, node):
        """The function of an operator with two operands."""
        left, right = [self.value(part) for part in node.parts]
        left_type, right_type = [part.value_type for part in node.parts]
        if node.mark == '&&':
            return lambda frame: 1 if left(frame) and right(frame) else 0
        if node.mark == '||':
            return lambda frame: 1 if left(frame) or right(frame) else 0
        if isinstance(left_type, Pointer):
            return moved(left, right, (1 if node.mark == '+' else -1) * (left_type.components or 1))
        if isinstance(right_type, Pointer):
            return moved_by_left(left, right, right_type.components or 1)
        left = converted(left, left_type, node.computed_in)
        if node.mark not in SHIFTS:
            right = converted(right, right_type, node.computed_in)
        operator = OPERATORS[node.mark, node.computed_in]
        return lambda frame: operator(left(frame), right(frame))

    def value_of_unary(self, node):
        """The function of an operator in front."""
        mark = node.mark
        if mark == 'sizeof':
            size = SIZE[node.spelled.base]
            return lambda frame: size
        if mark in ('++', '--'):
            return self.value_of_step(node, False)
        if mark == '&':
            return self.address(node.part)
        if mark == '*':
            return self.loaded(node)
        part = self.value(node.part)
        if mark == '!':
            return lambda frame: 0 if part(frame) else 1
        part, wrap = converted(part, node.part.value_type, node.value_type), WRAP[node.value_type]
        if mark == '+':
            return part
        return (lambda frame: wrap(-part(frame))) if mark == '-' else (lambda frame: wrap(~part(frame)))

    def value_of_postfix(self, node):
        """The function of an element, or of an operator behind."""
        return self.value_of_step(node, True) if node.mark in ('++', '--') else self.loaded(node)

    def value_of_step(self, node, gives_old):
        """The function of `++` and `--`."""
        target, name, computed_in = bare(node.part), node.value_type, node.computed_in
        by = 1 if node.mark == '++' else -1
        if not is_variable(target):
            address = self.address(target)

            def step_element(frame):
                thing, at = address(frame)
                old = load(frame[0], thing, at, name, target)
                new = stepped(old, by, computed_in, name)
                store(frame[0], thing, at, name, new, target)
                return old if gives_old else new
            return step_element
        slot = target.symbol.slot
        if target.symbol.kind == 'pointer':
            by *= name.components or 1

        def step_variable(frame):
            old = frame[slot]
            if computed_in is None:
                new = (old[0], old[1] + by)
            else:
                new = stepped(old, by, computed_in, name)
            frame[slot] = new
            return old if gives_old else new
        return step_variable

    def value_of_assignment(self, node):
        """The function of an assignment."""
        target, name, right_type = bare(node.parts[0]), node.value_type, node.parts[1].value_type
        right = self.value(node.parts[1])
        if is_variable(target):
            return self.variable_set(node, target.symbol.slot, right, right_type)
        address = self.address(target)
        if node.mark == '=':
            right = converted(right, right_type, name)

            def set_element(frame):
                thing, at = address(frame)
                value = right(frame)
                store(frame[0], thing, at, name, value, target)
                return value
            return set_element
        update = updated(node, name)

        def update_element(frame):
            thing, at = address(frame)
            value = load(frame[0], thing, at, name, target)
            value = update(value, right(frame))
            store(frame[0], thing, at, name, value, target)
            return value
        return update_element

    def variable_set(self, node, slot, right, right_type):
        """The function of an assignment to a variable."""
        name = node.value_type
        if node.mark == '=':
            value_of = converted(right, right_type, name) if is_number(name) else right

            def set_variable(frame):
                value = frame[slot] = value_of(frame)
                return value
            return set_variable
        if isinstance(name, Pointer):
            stride = (1 if node.mark == '+=' else -1) * (name.components or 1)

            def update(old, count):
                return old[0], old[1] + stride * count
        else:
            update = updated(node, name)

        def update_variable(frame):
            old = frame[slot]
            value = frame[slot] = update(old, right(frame))
            return value
        return update_variable

    def value_of_call(self, node):
        """The function of a call."""
        text, kind = node.text, node.kind
        if kind == 'fence':
            return lambda frame: None
        arguments = [self.value(each) for each in node.arguments]
        if kind == 'query':
            if not arguments:
                return lambda frame: query(frame[0], text, 0)
            dimension = converted(arguments[0], node.arguments[0].value_type, 'uint')
            return lambda frame: query(frame[0], text, dimension(frame))
        if kind == 'built-in':
            name = node.computed_in
            wanted = [converted(made, each.value_type, name) for made, each in zip(arguments, node.arguments)]
            return lambda frame: built_in(text, name, [each(frame) for each in wanted])
        return self.called(node, arguments)

    def called(self, node, arguments):
        """The function of a call of a function of the source."""
        function = self.functions[node.text]
        wanted = [converted(made, each.value_type, want) if isinstance(want, str) else made
                  for made, each, want in zip(arguments, node.arguments, function.parameter_types)]
        note_result_types(function)
        empty, block, makes = [0] * (function.slots - 2 - len(wanted)), function.node.block, self

        def call(frame):
            inner = [frame[0], 0] + [each(frame) for each in wanted] + empty
            (block.closure or makes.value(block))(inner)
            return inner[1]
        return call


def is_shared(node):
    """Whether a pointer leads to memory that several items share."""
    return node.value_type.space in ('global', 'local')


def moved(pointer, count, stride):
    """The function of a pointer plus or minus a number."""
    def move(frame):
        thing, at = pointer(frame)
        return thing, at + stride * count(frame)
    return move


def moved_by_left(count, pointer, stride):
    """The function of a number plus a pointer."""
    def move(frame):
        by = count(frame)
        thing, at = pointer(frame)
        return thing, at + by * stride
    return move
