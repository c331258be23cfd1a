"""Random statements. Each method gives lines; `depth` is how deep they may nest, `indent` how far they stand."""
from .expressions import TYPES

FENCES = ['CLK_LOCAL_MEM_FENCE | CLK_GLOBAL_MEM_FENCE', 'CLK_GLOBAL_MEM_FENCE|CLK_LOCAL_MEM_FENCE',
          '(CLK_LOCAL_MEM_FENCE)', 'CLK_GLOBAL_MEM_FENCE']


class Statements:
    """The part of the generator for statements.

    Between two barriers the kernel writes (each item its own elements) or reads (any element). What is declared is
    forgotten at the end of its block."""

    def new_name(self, letter):
        """A name that was not given before."""
        self.named += 1
        return '%s%d' % (letter, self.named)

    # Statements without barriers

    def block(self, depth, indent):
        """Some statements, whose variables are forgotten behind them."""
        kept = len(self.variables), len(self.arrays)
        lines = []
        for _ in range(self.random.randint(1, 3)):
            lines += self.statement(depth, indent)
        del self.variables[kept[0]:], self.arrays[kept[1]:]
        return lines

    def statement(self, depth, indent):
        """A statement without a barrier."""
        front, kind = '  ' * indent, self.random.random()
        if depth <= 0 or kind < .30:
            return [front + self.simple() + ';']
        if kind < .42:
            return [front + self.variable()]
        if kind < .46:
            return [front + self.array()]
        if kind < .66:
            return self.condition(depth, indent)
        if kind < .82 and self.loops < 2:
            return self.loop(depth, indent)
        if kind < .90:
            return self.switch(depth, indent)
        if kind < .94:
            return [front + '{'] + self.block(depth - 1, indent + 1) + [front + '}']
        return [front + self.simple() + ';']

    def variable(self):
        """The declaration of a variable."""
        name, kind = self.new_name('v'), self.pick(TYPES + ['bool'])
        start = ' = ' + self.expression(3, False, True) if self.chance(.85) else ''
        self.variables.append(name)
        return '%s %s%s;' % (kind, name, start)

    def array(self):
        """The declaration of an array, or of an array of rows."""
        has_rows = 'rows' in self.extras and self.chance(.5)
        name, kind = self.new_name('m' if has_rows else 'p'), self.pick(TYPES)
        values = [self.expression(1) for _ in range(self.random.randint(1, 4))]
        self.arrays.append(name)
        start = '' if self.chance(.4) else ' = {%s}' % ', '.join(values)
        return '%s %s%s%s;' % (kind, name, '[2][3]' if has_rows else '[4]', start)

    def condition(self, depth, indent):
        """An `if`."""
        front = '  ' * indent
        lines = [front + 'if (%s) {' % self.expression(2, False, True)] + self.block(depth - 1, indent + 1)
        if self.chance(.5):
            lines += [front + '} else {'] + self.block(depth - 1, indent + 1)
        return lines + [front + '}']

    def loop(self, depth, indent):
        """A loop of a few iterations."""
        front, name = '  ' * indent, self.new_name('c')
        most = '(int)((%s) & %d)' % (self.expression(2), self.pick([1, 3, 5, 7]))
        self.loops += 1
        body = self.block(depth - 1, indent + 1) + self.way_out(indent + 1)
        self.loops -= 1
        kind = self.random.random()
        if kind < .5:
            return [front + 'for (int %s = 0; %s < %s; %s++) {' % (name, name, most, name)] + body + [front + '}']
        start = front + '{ int %s = %s;' % (name, most)
        if kind < .8:
            return [start, front + 'while (%s-- > 0) {' % name] + body + [front + '} }']
        return [start, front + 'do {'] + body + [front + '} while (--%s > 0); }' % name]

    def way_out(self, indent):
        """A way out of a loop under a condition, or nothing."""
        if not self.chance(.35):
            return []
        word = self.pick(['break', 'continue', 'break', 'continue', 'return' if self.may_return else 'break'])
        if word == 'return' and self.gives_value:
            word = 'return %s' % self.expression(1)
        return ['  ' * indent + 'if (%s) %s;' % (self.expression(2), word)]

    def switch(self, depth, indent):
        """A `switch`."""
        front = '  ' * indent
        lines = [front + 'switch ((%s) & 7) {' % self.expression(2)]
        labels = self.random.sample(range(8), self.random.randint(1, 4))
        default = self.random.randrange(len(labels) + 2)
        for at, label in enumerate(labels):
            if at == default:
                lines.append(front + 'default:')
            lines += [front + 'case %d: {' % label] + self.block(depth - 1, indent + 1) + [front + '}']
            if self.chance(.6):
                lines.append(front + 'break;')
        return lines + [front + '}']

    def simple(self):
        """An assignment, or an expression."""
        kind = self.random.random()
        if self.in_kernel and kind < .45:
            return self.store()
        if self.arrays and kind < .55:
            return '%s %s= %s' % (self.element(self.pick(self.arrays), self.expression(1)), self.pick(['', '+', '^']),
                                  self.expression(2, False, True))
        if self.variables:
            return '%s %s= %s' % (self.pick(self.variables), self.pick(['', '+', '^', '*', '>>', '%']),
                                  self.expression(3, False, True))
        if self.in_kernel and self.chance(.8):
            return 'out[g] %s= %s' % (self.pick('+^-'), self.expression(3, False, True))
        return self.expression(2, False, True)

    def store(self):
        """A store to an element of the item's own."""
        target, marks = 'out[g]', ['+', '^', '-', '+', '^']
        if self.phase == 'write' and self.chance(.6):
            target = self.pick(['t[l]', 'sh[l]'] + (['loc[l]'] if 'local' in self.extras else []))
        if self.chance(.25):
            marks = ['', '<<', '/', '|', '%', '*']
        if target != 'out[g]' and self.chance(.5):
            marks = ['']
        return '%s %s= %s' % (target, self.pick(marks), self.expression(3, False, True))

    # Statements that all items of a group reach, which may hold barriers

    def barrier(self, indent):
        """A barrier, behind which the kernel writes or reads."""
        self.phase = self.pick(['write', 'read'])
        return ['  ' * indent + 'barrier(%s);' % self.pick(FENCES)]

    def group_block(self, depth, indent, in_loop):
        """Some statements between two barriers."""
        kept = len(self.uniform), len(self.variables), len(self.arrays)
        lines = self.barrier(indent)
        for _ in range(self.random.randint(1, 3)):
            lines += self.group_statement(depth, indent, in_loop)
        lines += self.barrier(indent)
        del self.uniform[kept[0]:], self.variables[kept[1]:], self.arrays[kept[2]:]
        return lines

    def group_statement(self, depth, indent, in_loop=False):
        """A statement that may hold barriers."""
        front, kind = '  ' * indent, self.random.random()
        if kind < .28:
            return self.statement(2, indent)
        if kind < .42:
            return self.barrier(indent)
        if kind < .52:
            return [front + self.uniform_variable()]
        if kind < .57:
            own = [name for name in self.uniform_own if name in self.uniform]
            if own:
                return [front + '%s %s= %s;' % (self.pick(own), self.pick(['', '+', '^']), self.expression(2, True))]
            return self.statement(1, indent)
        if depth <= 0:
            return self.statement(1, indent)
        if kind < .67:
            return self.group_condition(depth, indent, in_loop)
        if kind < .82:
            return self.group_loop(depth, indent)
        if kind < .88:
            return self.group_switch(depth, indent, in_loop)
        functions = [each for each in self.functions if each.has_barrier]
        return self.group_call(self.pick(functions), indent) if functions else self.statement(1, indent)

    def uniform_variable(self):
        """The declaration of a variable that is the same in all items of a group."""
        name, kind = self.new_name('u'), self.pick(['int', 'uint', 'long', 'uchar'])
        line = '%s %s = %s;' % (kind, name, self.expression(2, True))
        self.uniform.append(name)
        self.uniform_own.append(name)
        return line

    def group_condition(self, depth, indent, in_loop):
        """An `if` with barriers."""
        front = '  ' * indent
        lines = [front + 'if (%s) {' % self.expression(2, True)] + self.group_block(depth - 1, indent + 1, in_loop)
        if in_loop and self.chance(.3):
            lines += ['  ' * (indent + 1) + self.pick(['break;', 'continue;'])]
        if self.chance(.4):
            lines += [front + '} else {'] + self.group_block(depth - 1, indent + 1, in_loop)
        return lines + [front + '}'] + self.barrier(indent)

    def group_loop(self, depth, indent):
        """A loop with barriers."""
        front, name, kind = '  ' * indent, self.new_name('i'), self.random.random()
        most = '(int)((%s) & 3)' % self.expression(1, True)
        if kind < .6:
            self.uniform.append(name)
            body = self.group_block(depth - 1, indent + 1, True)
            self.uniform.remove(name)
            head = 'for (int %s = 0; %s < %s; %s++) {' % (name, name, most, name)
            return [front + head] + body + [front + '}'] + self.barrier(indent)
        start = front + '{ int %s = %s;' % (name, most)
        body = self.group_block(depth - 1, indent + 1, True)
        if kind < .8:
            return [start, front + 'while (%s-- > 0) {' % name] + body + [front + '} }'] + self.barrier(indent)
        return [start, front + 'do {'] + body + [front + '} while (--%s > 0); }' % name] + self.barrier(indent)

    def group_switch(self, depth, indent, in_loop):
        """A `switch` with barriers."""
        front = '  ' * indent
        lines = [front + 'switch ((%s) & 3) {' % self.expression(1, True)]
        for label in self.random.sample(range(4), self.random.randint(1, 3)):
            lines += [front + 'case %d: {' % label] + self.group_block(depth - 1, indent + 1, in_loop) + [front + '}']
            if self.chance(.6):
                lines.append(front + 'break;')
        return lines + [front + '}'] + self.barrier(indent)

    def group_call(self, function, indent):
        """A call of a function that holds barriers."""
        front, kind = '  ' * indent, self.random.random()
        arguments = ', '.join(self.expression(2) for _ in range(function.count))
        call = '%s(t, l, %s)' % (function.name, arguments)
        before = self.barrier(indent)
        if kind < .4 or not self.variables:
            line = 'out[g] += %s;' % call
        elif kind < .7:
            name = self.pick(self.variables)
            line = '%s = %s + %s;' % (name, name, call)
        else:
            line = 'out[g] ^= (%s) %s %s;' % (self.expression(2, True), self.pick(['&&', '||']), call)
        return before + [front + line] + self.barrier(indent)
