"""`goto` as loops: back to a label, and forward out of loops."""
from .notes import Refused
from .tokens import in_source
from .tree import Node, statements_of

LOOPS = ('while', 'do', 'for')
PARTS = ('then', 'otherwise', 'body')


class Gotos:
    """Rewrites the `goto` of one function, in its tree."""

    def __init__(self, names, notes):
        self.names, self.notes = names, notes

    def block(self, node):
        """Rewrites a block, the blocks in it first."""
        for item in node.items:
            self.below(item)
        at = 0
        while at < len(node.items):
            item = node.items[at]
            if item.kind == 'label':
                self.label(node, at, item)
            at += 1

    def below(self, node):
        """The blocks below a statement."""
        if node.kind == 'block':
            self.block(node)
            return
        for name in PARTS:
            part = node.__dict__.get(name)
            if isinstance(part, Node):
                self.below(part)

    def label(self, block, at, label):
        """The `goto` of one label."""
        uses = [number for number, item in enumerate(block.items) if has_goto(item, label.name)]
        if not uses:
            return
        if uses[-1] < at:
            self.forward(block, uses[0], at, label)
        elif uses[0] >= at:
            self.back(block, at, uses[-1] + 1, label)
        else:
            raise Refused(label.token, 'a label to which `goto` leads from both sides', 'goto')

    def forward(self, block, start, end, label):
        """Statements that are left for the label behind them: a loop that is made once."""
        region = block.items[start:end]
        self.check(region, block.items[end:], label)
        flag = self.flag(region, label)
        region = [self.replaced(item, label.name, 'break', flag) for item in region]
        token = block.items[start].token
        body = Node('block', in_source(token, '{'), items=region, end=in_source(label.token, '}'))
        block.items[start:end] = self.flag_declared(flag, token) + [Node('wrapped', token, body=body, is_once=True)]
        self.notes.add('goto is break', label.token)

    def back(self, block, start, end, label):
        """Statements to whose start is gone back: a loop that ends behind them."""
        region = block.items[start:end]
        self.check(region, block.items[end:], label)
        region[0] = label.body
        flag = self.flag(region, label)
        region = [self.replaced(item, label.name, 'continue', flag) for item in region]
        if flag:
            region.insert(0, raw(label.token, '%s = 0;' % flag))
        region.append(raw(label.token, 'break;'))
        body = Node('block', in_source(label.token, '{'), items=region, end='}')
        block.items[start:end] = self.flag_declared(flag, label.token) + [
            Node('wrapped', label.token, body=body, is_once=False)]
        self.notes.add('goto is continue', label.token)

    def check(self, region, behind, label):
        """Refuses what a loop around the statements would change."""
        for item in region:
            if leaves(item):
                raise Refused(label.token, 'goto beside break or continue of a loop around it', 'goto')
            if item.kind == 'declaration' and behind:
                raise Refused(item.token, 'a declaration between goto and its label', 'goto')

    def flag(self, region, label):
        """The name of the variable that says that a `goto` inside a loop was met, or None."""
        return self.names.new() if any(has_inner_goto(item, label.name) for item in region) else None

    def flag_declared(self, flag, token):
        """Its declaration."""
        return [raw(token, 'int %s = 0;' % flag)] if flag else []

    def replaced(self, node, name, word, flag, is_inner=False):
        """A statement with each `goto` of the name replaced. Inside a loop it leaves the loop, and then the next."""
        if node.kind == 'goto' and node.name == name:
            return raw(node.token, '{ %s = 1; break; }' % flag if is_inner else '%s;' % word)
        is_loop = node.kind in LOOPS or node.kind == 'switch'
        inside = is_inner or is_loop
        found = has_goto(node, name)
        for part in PARTS:
            below = node.__dict__.get(part)
            if isinstance(below, Node):
                setattr(node, part, self.replaced(below, name, word, flag, inside))
        if node.kind == 'block':
            node.items = [self.replaced(item, name, word, flag, is_inner) for item in node.items]
        if is_loop and found:
            after = raw(node.token, 'if (%s) %s;' % (flag, 'break' if is_inner else word))
            return Node('block', in_source(node.token, '{'), items=[node, after], end='}')
        return node


def raw(token, text):
    """A statement that was made."""
    return Node('raw', token, text=text)


def has_goto(node, name):
    """Whether a statement has a `goto` of the name."""
    return any(each.kind == 'goto' and each.name == name for each in every(node))


def has_inner_goto(node, name):
    """Whether a statement has one inside a loop or a switch."""
    return any((each.kind in LOOPS or each.kind == 'switch') and has_goto(each, name) for each in every(node))


def every(node):
    """A statement and all below it, those that were made too."""
    yield from statements_of(node) if node.kind not in ('wrapped', 'raw') else [node]
    if node.kind == 'wrapped':
        yield from every(node.body)


def leaves(node, in_loop=False, in_switch=False):
    """Whether a statement has a `break` or `continue` of a loop or switch around it."""
    if node.kind == 'break':
        return not (in_loop or in_switch)
    if node.kind == 'continue':
        return not in_loop
    if node.kind == 'wrapped':
        return False
    inside, chosen = in_loop or node.kind in LOOPS, in_switch or node.kind == 'switch'
    below = [node.__dict__.get(part) for part in PARTS] + (node.items if node.kind == 'block' else [])
    return any(isinstance(each, Node) and leaves(each, inside, chosen) for each in below)
