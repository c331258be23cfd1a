"""Statements as `wgcc` takes them."""
from . import types
from .context import Context
from .layout import plain
from .notes import Refused
from .tokens import in_source
from .tree import has_effect, stripped
from .types import Struct, Vector


class Bodies:
    """The part of the lowering that writes statements."""

    def context(self):
        """A context for one statement."""
        return Context(self.names)

    def whole(self, context, text, token):
        """A statement with its steps in front of it, as one statement."""
        if not context.steps and not context.variables:
            return text if text else in_source(token, ';')
        return [in_source(token, '{'), ' ', self.front(context), text, ' }']

    def front(self, context):
        """The variables and the steps of a context, as statements."""
        found = [[variable, ' '] for variable in context.variables]
        found += [[step.statement, ' '] for step in context.steps]
        context.steps = []
        return found

    def statement(self, node):
        """The text of one statement."""
        return getattr(self, 'statement_' + node.kind)(node)

    def items(self, nodes):
        """The texts of the statements of a block."""
        return [self.declared(node) if node.kind == 'declaration' else self.statement(node) for node in nodes]

    def statement_block(self, node):
        """A block."""
        return [node.token, self.items(node.items), node.end]

    def statement_empty(self, node):
        """A statement without an effect."""
        return in_source(node.token, ';')

    def statement_declaration(self, node):
        """A declaration that stands as a statement of its own."""
        return [in_source(node.token, '{'), self.declared(node), '}']

    def statement_expression(self, node):
        """An expression whose value is not used."""
        context = self.context()
        text = self.effect(node.value, context, is_statement=True)
        return self.whole(context, [text, node.end] if text else [], node.token)

    def comma_of(self, context, text):
        """The steps of a context and a text as one expression, whose value is not used."""
        parts = [step.expression for step in context.steps] + ([text] if text else [])
        context.steps = []
        if any(part is None for part in parts):
            raise Refused(None, 'a loop inside an expression')
        found = []
        for part in parts:
            found += [', '] if found else []
            found.append(part)
        return found

    def statement_if(self, node):
        """`if`."""
        context = self.context()
        test = self.truth(node.test, context)
        text = [node.token, ' (', test, ')', self.inner_of(node.then)]
        if node.otherwise is not None:
            text += [node.word, self.inner_of(node.otherwise)]
        return self.whole(context, text, node.token)

    def inner_of(self, node):
        """A statement that is a part of another one."""
        return self.statement(node)

    def statement_while(self, node):
        """`while`, whose test is evaluated each time."""
        context = self.context()
        inner = context.part()
        test = self.truth(node.test, inner)
        text = [node.token, ' (', inner.ahead(test), ')', self.inner_of(node.body)]
        return self.whole(context, text, node.token)

    def statement_do(self, node):
        """`do`."""
        context = self.context()
        inner = context.part()
        body = self.inner_of(node.body)
        test = self.truth(node.test, inner)
        text = [node.token, body, node.word, ' (', inner.ahead(test), ')', node.end]
        return self.whole(context, text, node.token)

    def statement_for(self, node):
        """`for`."""
        context = self.context()
        first = self.first_of(node, context)
        test, step = [], []
        if node.test is not None:
            inner = context.part()
            text = self.truth(node.test, inner)
            test = inner.ahead(text)
        if node.step is not None:
            inner = context.part()
            text = self.effect(node.step, inner)
            step = self.comma_of(inner, text)
        text = [node.token, ' (', first, test, '; ', step, ')', self.inner_of(node.body)]
        return self.whole(context, text, node.token)

    def first_of(self, node, context):
        """The first part of a `for`, with its semicolon; what does not fit there stands in front."""
        first = node.first
        if first.kind == 'empty':
            return ';'
        if first.kind == 'expression':
            text = self.effect(first.value, context, is_statement=False)
            return [text, '; '] if text else ';'
        found = self.declarations_of(first, context)
        has_vector = any(isinstance(each.symbol.type, (Vector, Struct)) for each in first.declarators)
        if len(found) == 1 and not context.steps and not has_vector:
            return [found[0], ' ']
        context.variables += [plain(part) for part in self.front_texts(context)] + [plain(part) for part in found]
        return ';'

    def front_texts(self, context):
        """The texts of variables and steps, which are taken out of the context."""
        found = list(context.variables) + [step.statement for step in context.steps]
        context.variables.clear()
        context.steps = []
        return found

    def statement_switch(self, node):
        """`switch`: a declaration at the outer level of its body stands in front of it."""
        context = self.context()
        test = self.value(node.test, context)
        found = []
        for item in node.body.items:
            if item.kind == 'declaration':
                found.append(self.declared_before(item, context))
            else:
                found.append(self.statement(item))
        text = [node.token, ' (', test, ')', node.body.token, found, node.body.end]
        return self.whole(context, text, node.token)

    def declared_before(self, node, context):
        """A declaration inside a switch: the variables stand in front of the switch, and are set there."""
        self.notes.add('a declaration inside a switch stands in front of it', node.token)
        found = []
        for declarator in node.declarators:
            symbol, initial = declarator.symbol, declarator.initial
            if symbol.form != 'plain' or not isinstance(symbol.type, (types.Scalar, Vector)):
                raise Refused(symbol.token, 'a declaration of this form inside a switch')
            context.variables.append('%s %s;' % (types.spelled(symbol.type), symbol.out))
            inner = self.context()
            if initial is None:
                value = ['(%s)(0)' % types.spelled(symbol.type)]
            elif isinstance(symbol.type, Vector):
                value = self.vector(initial, inner)
            else:
                value = self.converted(initial, symbol.type, inner)
            found.append(self.whole(inner, [in_source(symbol.token, symbol.out), ' = ', value, ';'], node.token))
        return found

    def statement_case(self, node):
        """`case`."""
        return [node.token, self.value(node.value, self.context()), ':', self.statement(node.body)]

    def statement_default(self, node):
        """`default`."""
        return [node.token, ':', self.statement(node.body)]

    def statement_break(self, node):
        """`break`."""
        return [node.token, node.end]

    statement_continue = statement_break

    def statement_label(self, node):
        """A label that is left has no `goto`."""
        return self.statement(node.body)

    def statement_goto(self, node):
        """`goto`."""
        raise Refused(node.token, 'goto %s' % node.name, 'goto')

    def statement_raw(self, node):
        """A statement that was made."""
        return in_source(node.token, node.text)

    def statement_wrapped(self, node):
        """Statements in a loop that was made."""
        if node.is_once:
            return [in_source(node.token, 'do'), self.statement(node.body), ' while (0);']
        return [in_source(node.token, 'while (1)'), self.statement(node.body)]

    def statement_return(self, node):
        """`return`; a vector or a structure is stored through a pointer."""
        result = self.function.symbol.type.result
        if isinstance(result, (Vector, Struct)):
            return self.return_stored(node, result)
        if node.value is None or isinstance(node.value.type, types.Void):
            text = []
            context = self.context()
            if node.value is not None:
                text = [self.effect(node.value, context, is_statement=True), '; ']
            word = [in_source(node.token, 'return 0' if self.function.symbol.as_number else 'return'), node.end]
            return ['{ ', self.front(context), text, word, ' }'] if text or context.steps else word
        context = self.context()
        value = self.converted(node.value, result, context)
        return self.whole(context, [node.token, value, node.end], node.token)

    def return_stored(self, node, result):
        """A vector or a structure that a function returns."""
        context = self.context()
        name = self.function.result_name
        if isinstance(result, Vector):
            if not isinstance(node.value.type, Vector):
                text = ['(%s)(' % types.spelled(result), self.converted(node.value, types.Scalar(result.base), context),
                        ')']
            else:
                text = self.vector(node.value, context)
            text = [name, '[0] = ', text, '; ']
        else:
            text = [self.copied(self.result_place(name, result), self.struct_place(node.value, context, True)), '; ']
        return self.whole_return(context, [text, in_source(node.token, 'return 0'), node.end], node.token)

    def whole_return(self, context, text, token):
        """Statements that end a function, as one."""
        return [in_source(token, '{'), ' ', self.front(context), text, ' }']

    def is_effect(self, node):
        """Whether an expression changes something."""
        return has_effect(stripped(node))
