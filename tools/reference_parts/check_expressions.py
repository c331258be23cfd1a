"""The part of the checker for expressions, and the values of constant expressions.

`type_of` gives the type of an expression, and None where it or a part of it is at fault."""
from .numbers import BUILT_IN, COMPARISONS, OPERATORS, SHIFTS, SIZE, UNSIGNED_OF, WRAP, common, is_number, promoted
from .symbols import FENCES, FLAGS, QUERIES, Pointer, is_pointer, is_rows
from .tree import bare


class CheckedExpressions:
    """Checks expressions."""

    def lookup(self, text):
        """The symbol that a name stands for here, or None."""
        for scope in reversed(self.scopes):
            if text in scope:
                return scope[text]
        return None

    def type_of(self, node, is_whole=False, may_be_flag=False):
        """Checks an expression, which is no vector. `is_whole` where it is a statement of its own."""
        if node.form == 'call':
            found = self.check_call(node, is_whole)
        elif node.form == 'variable':
            found = self.check_variable(node, may_be_flag)
        elif node.form in ('number', 'truth'):
            found = node.literal_type
        elif node.form == 'paren':
            found = self.type_of(node.part, False, may_be_flag)
            node.symbol = node.part.symbol
        elif node.form == 'binary':
            found = self.check_binary(node, may_be_flag)
        else:
            found = getattr(self, 'check_' + node.form)(node)
        node.value_type = found
        return found

    def types_of(self, nodes):
        """The types of several expressions, or None where one is at fault."""
        found = [self.type_of(node) for node in nodes]
        return None if None in found else found

    def wrong(self, node, number):
        """Notes a fault of an expression."""
        self.fault(node, number)

    def check_variable(self, node, may_be_flag):
        """Checks a name."""
        if may_be_flag and node.text in FLAGS:
            return 'int'
        symbol = self.lookup(node.text)
        if symbol is None:
            return self.wrong(node, 401)
        node.symbol = symbol
        return symbol.type

    # Calls

    def kind_of_call(self, text):
        """What is called: a built-in function, a work-item function, a fence, a function of the source, or nothing."""
        if self.lookup(text) is not None:
            return None
        if text in BUILT_IN:
            return 'built-in'
        if text in QUERIES:
            return 'query'
        if text in FENCES:
            return 'fence'
        function = self.functions.get(text)
        is_free = function is not None and not function.is_kernel and text not in self.kernels
        return 'function' if is_free else None

    def check_call(self, node, is_whole):
        """Checks a call."""
        kind = node.kind = self.kind_of_call(node.text)
        function = self.functions.get(node.text)
        types = [self.type_of(each, may_be_flag=kind == 'fence') for each in node.arguments]
        if kind is None:
            return self.wrong(node, 401)
        if kind == 'function':
            function.is_called = True
        if None in types:
            return None
        count = {'function': lambda: len(function.parameter_types), 'built-in': lambda: BUILT_IN[node.text],
                 'query': lambda: QUERIES[node.text], 'fence': lambda: 1}[kind]()
        if len(types) != count:
            return self.wrong(node, 404)
        if kind == 'fence':
            return self.check_fence(node, types[0], is_whole)
        if kind == 'function':
            return self.check_called(node, function, types, is_whole)
        if not all(is_number(found) for found in types):
            return self.wrong(node, 405)
        if kind == 'query':
            return 'uint' if node.text == 'get_work_dim' else 'ulong'
        types = ['int' if found == 'bool' else found for found in types]
        node.computed_in = types[0]
        if any(found != types[0] for found in types):
            node.computed_in = promoted(types[0])
            for found in types[1:]:
                node.computed_in = common(node.computed_in, found)
        return UNSIGNED_OF[node.computed_in] if node.text in ('abs', 'abs_diff') else node.computed_in

    def check_fence(self, node, found, is_whole):
        """Checks a barrier or fence, whose argument has this type."""
        numbers = set()
        if not is_whole:
            numbers.add(403)
        if not is_number(found):
            numbers.add(405)
        if not self.is_flags(node.arguments[0]):
            numbers.add(418)
        return self.wrong(node, min(numbers)) if numbers else 'void'

    def is_flags(self, node):
        """Whether an argument is one of the two flags, or both joined."""
        def flag(part):
            part = bare(part)
            return part.text if part.form == 'variable' and part.text in FLAGS else None
        node = bare(node)
        if flag(node):
            return True
        if node.form != 'binary' or node.mark != '|':
            return False
        left, right = flag(node.parts[0]), flag(node.parts[1])
        return bool(left and right) and left != right

    def check_called(self, node, function, types, is_whole):
        """Checks the call of a function of the source, whose arguments have these types."""
        numbers = set()
        for found, want in zip(types, function.parameter_types):
            if isinstance(want, str) and not is_number(found):
                numbers.add(405)
            if isinstance(want, tuple) and not (is_pointer(found) and (found.space, found.element) == want[:2]):
                numbers.add(405)
        if function.is_void and not is_whole:
            numbers.add(403)
        if numbers:
            return self.wrong(node, min(numbers))
        if self.function is not None and not getattr(node, 'is_noted', False):
            node.is_noted = True
            self.calls.append((self.function, node.text, node))
        return 'void' if function.is_void else function.result

    # Operators

    def check_comma(self, node):
        """Checks the operator `,`."""
        found = self.types_of(node.parts)
        if found is None:
            return None
        return self.wrong(node, 403) if is_rows(found[0]) or is_rows(found[1]) else found[1]

    def check_choice(self, node):
        """Checks `? :`."""
        found = self.types_of(node.parts)
        if found is None:
            return None
        if not all(is_number(each) for each in found):
            return self.wrong(node, 403)
        return common(found[1], found[2])

    def check_binary(self, node, may_be_flag):
        """Checks an operator with two operands."""
        left, right = [self.type_of(part, may_be_flag=may_be_flag) for part in node.parts]
        if left is None or right is None:
            return None
        if node.mark in ('+', '-') and is_pointer(left) and is_number(right):
            return left
        if node.mark == '+' and is_number(left) and is_pointer(right):
            return right
        if not is_number(left) or not is_number(right):
            return self.wrong(node, 403)
        if node.mark in ('&&', '||'):
            return 'int'
        node.computed_in = promoted(left) if node.mark in SHIFTS else common(left, right)
        return 'int' if node.mark in COMPARISONS else node.computed_in

    def check_cast(self, node):
        """Checks a cast."""
        want = self.number_type(node.spelled)
        found = self.type_of(node.part)
        if want is None or found is None:
            return None
        return want if is_number(found) else self.wrong(node, 403)

    def target_of(self, node):
        """Of a target its type, whether it is constant, and its space; None where it is no target."""
        node = bare(node)
        if node.form == 'variable' and node.symbol is not None:
            symbol = node.symbol
            if symbol.kind in ('scalar', 'pointer'):
                return node.value_type, symbol.is_const, None
            return (node.value_type, symbol.is_const, symbol.space) if symbol.kind == 'object' else None
        base = None
        if node.form == 'postfix' and node.mark == '[]':
            base = node.base
        if node.form == 'unary' and node.mark == '*':
            base = node.part
        if base is not None and is_number(node.value_type) and isinstance(base.value_type, Pointer):
            return node.value_type, base.value_type.is_const, base.value_type.space
        return None

    def assignable(self, node, numbers):
        """Adds what keeps a node from being assigned to; its target."""
        target = self.target_of(node)
        if target is None:
            numbers.add(406)
        elif target[2] == 'constant':
            numbers.add(407)
        elif target[1]:
            numbers.add(406)
        return target

    def check_assignment(self, node):
        """Checks an assignment."""
        found = self.types_of(node.parts)
        if found is None:
            return None
        left, right = found
        numbers = set()
        if self.assignable(node.parts[0], numbers) is not None:
            if is_number(left):
                self.check_number_set(node, left, right, numbers)
            else:
                self.check_pointer_set(node, left, right, numbers)
        return self.wrong(node, min(numbers)) if numbers else left

    def check_number_set(self, node, left, right, numbers):
        """Checks the assignment to a number."""
        if not is_number(right):
            numbers.add(403)
        elif node.mark != '=':
            node.computed_in = promoted(left) if node.mark[:-1] in SHIFTS else common(left, right)

    def check_pointer_set(self, node, left, right, numbers):
        """Checks the assignment to a pointer variable."""
        if node.mark == '=':
            if not is_pointer(right):
                numbers.add(403)
            elif (right.space, right.element, right.components) != (left.space, left.element, left.components):
                numbers.add(403)
            elif right.root is not bare(node.parts[0]).symbol.root:
                numbers.add(413)
        elif node.mark not in ('+=', '-=') or not is_number(right):
            numbers.add(403)

    def check_step(self, node):
        """Checks `++` and `--`."""
        found = self.type_of(node.part)
        if found is None:
            return None
        numbers = set()
        self.assignable(node.part, numbers)
        if numbers:
            return self.wrong(node, min(numbers))
        if is_number(found):
            node.computed_in = common(found, 'int')
        return found

    def check_unary(self, node):
        """Checks an operator in front."""
        if node.mark == 'sizeof':
            return None if self.number_type(node.spelled) is None else 'ulong'
        if node.mark in ('++', '--'):
            return self.check_step(node)
        if node.mark == '&' and self.is_vector(node.part):
            return self.check_address_of_vector(node)
        found = self.type_of(node.part)
        if found is None:
            return None
        if node.mark == '*':
            return found.row() if isinstance(found, Pointer) else self.wrong(node, 403)
        if node.mark != '&':
            if not is_number(found):
                return self.wrong(node, 403)
            return 'int' if node.mark == '!' else promoted(found)
        element = bare(node.part)
        if element.form != 'postfix' or element.mark != '[]' or not is_number(element.value_type):
            return self.wrong(node, 403)
        base = element.base.value_type
        return Pointer(base.space, base.element, base.is_const, base.root)

    def check_postfix(self, node):
        """Checks an index, a selection of one component, or an operator behind."""
        if node.mark in ('++', '--'):
            return self.check_step(node)
        if node.mark == '.':
            return self.check_component(node)
        found = self.types_of([node.base, node.index])
        if found is None:
            return None
        base, index = found
        if not isinstance(base, Pointer) or not is_number(index):
            return self.wrong(node, 403)
        return base.row()

    # The values of constant expressions: a number, or None where it is none.

    def constant(self, node):
        """The value of a constant expression, or None."""
        if node.form in ('number', 'truth'):
            return node.value
        if node.form == 'paren':
            return self.constant(node.part)
        if node.form == 'cast':
            value = self.constant(node.part)
            return None if value is None or node.spelled.base.startswith('!') else WRAP[node.spelled.base](value)
        if node.form == 'unary':
            return self.constant_unary(node)
        if node.form == 'choice':
            values = [self.constant(part) for part in node.parts]
            if None in values or not is_number(node.value_type):
                return None
            return WRAP[node.value_type](values[1] if values[0] else values[2])
        return self.constant_binary(node) if node.form == 'binary' else None

    def constant_unary(self, node):
        """The value of an operator in front, or None."""
        if node.mark == 'sizeof':
            return SIZE.get(node.spelled.base)
        if node.mark not in ('+', '-', '~', '!'):
            return None
        value = self.constant(node.part)
        if value is None or not is_number(node.value_type):
            return None
        if node.mark == '!':
            return 0 if value else 1
        wrap = WRAP[node.value_type]
        value = wrap(value)
        return wrap(-value if node.mark == '-' else ~value if node.mark == '~' else value)

    def constant_binary(self, node):
        """The value of an operator with two operands, or None."""
        left, right = self.constant(node.parts[0]), self.constant(node.parts[1])
        if left is None or right is None or node.value_type is None:
            return None
        if node.mark == '&&':
            return 1 if left and right else 0
        if node.mark == '||':
            return 1 if left or right else 0
        wrap = WRAP[node.computed_in]
        return OPERATORS[node.mark, node.computed_in](wrap(left), right if node.mark in SHIFTS else wrap(right))
