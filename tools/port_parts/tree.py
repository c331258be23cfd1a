"""The tree of a source: expressions with their types, statements, and the symbols that names stand for."""


class Node:
    """A part of the tree: its kind, its first token, its type where it is an expression, and its own parts."""

    def __init__(self, kind, token, **parts):
        self.kind, self.token, self.type = kind, token, None
        self.__dict__.update(parts)

    def __repr__(self):
        return '<%s %s>' % (self.kind, self.token)


class Symbol:
    """What a name stands for. `out` is the name that is printed; `bases` are the objects that a pointer may lead to."""

    def __init__(self, kind, name, type_, token, space='private'):
        self.kind, self.name, self.type, self.token, self.space = kind, name, type_, token, space
        self.out, self.value, self.function, self.node = name, None, None, None
        self.is_addressed = self.is_parameter = self.is_assigned = self.is_moving = self.is_compared = False
        self.is_kernel_parameter = False
        self.initial = self.unit = None
        self.sources = []

    def __repr__(self):
        return 'Symbol(%s)' % self.name


class Scope:
    """The names of a block, and those of the blocks around it."""

    def __init__(self, above=None):
        self.above, self.names, self.tags = above, {}, {}

    def find(self, name):
        """What a name stands for here, or None."""
        scope = self
        while scope is not None:
            if name in scope.names:
                return scope.names[name]
            scope = scope.above
        return None

    def find_tag(self, tag):
        """The structure or enumeration with a tag, or None."""
        scope = self
        while scope is not None:
            if tag in scope.tags:
                return scope.tags[tag]
            scope = scope.above
        return None


EXPRESSION_PARTS = ('inner', 'operand', 'base', 'at', 'left', 'right', 'test', 'yes', 'no')


def parts_of(node):
    """The expressions that an expression is made of, in their order."""
    for name in EXPRESSION_PARTS:
        part = node.__dict__.get(name)
        if isinstance(part, Node):
            yield part
    listed = node.list.items if node.kind == 'literal' else ()
    for name in ('items', 'arguments'):
        for part in node.__dict__.get(name) or listed:
            if isinstance(part, Node):
                yield part


def all_of(node):
    """An expression and all below it."""
    yield node
    for part in parts_of(node):
        yield from all_of(part)


def statements_of(node):
    """A statement and all statements below it."""
    yield node
    for name in ('first', 'then', 'otherwise', 'body'):
        part = node.__dict__.get(name)
        if isinstance(part, Node) and part.kind in STATEMENTS:
            yield from statements_of(part)
    if node.kind == 'block':
        for part in node.items:
            yield from statements_of(part)


STATEMENTS = {'block', 'expression', 'empty', 'if', 'while', 'do', 'for', 'switch', 'case', 'default', 'break',
              'continue', 'return', 'goto', 'label', 'declaration'}


def expressions_of(statement):
    """The whole expressions that stand in a statement itself, those of its declarators included."""
    for name in ('value', 'test', 'step'):
        part = statement.__dict__.get(name)
        if isinstance(part, Node):
            yield part
    for declarator in statement.__dict__.get('declarators') or ():
        if declarator.initial is not None:
            yield declarator.initial


def stripped(node):
    """An expression without the parentheses around it."""
    while node.kind == 'paren':
        node = node.inner
    return node


def is_simple(node):
    """Whether an expression may be written twice: it changes nothing and takes few steps."""
    node = stripped(node)
    if node.kind in ('number', 'name', 'sizeof'):
        return True
    if node.kind == 'binary' and node.op.text in ('+', '-', '*', '<<', '&'):
        return is_simple(node.left) and is_simple(node.right)
    if node.kind in ('cast', 'unary') and (node.kind == 'cast' or node.op.text in ('-', '+', '~')):
        return is_simple(node.operand)
    return node.kind == 'call' and node.name.startswith('get_') and all(is_simple(each) for each in node.arguments)


def has_effect(node):
    """Whether an expression changes something: an assignment, or a call of a function of the source."""
    for each in all_of(node):
        if each.kind in ('assign', 'postfix') or each.kind == 'unary' and each.op.text in ('++', '--'):
            return True
        if each.kind == 'call' and (each.symbol is not None or not is_pure_name(each.name)):
            return True
    return False


def is_pure_name(name):
    """Whether a built-in function changes nothing."""
    return not name.startswith(('barrier', 'mem_fence', 'read_mem', 'write_mem', 'vstore', 'async_', 'wait_group',
                                'prefetch', 'atom', 'printf'))


def is_leaf(node):
    """Whether an expression is one token."""
    return stripped(node).kind in ('number', 'name')
