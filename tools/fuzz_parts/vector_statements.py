"""Random kernels with short vectors."""
from reference_parts.numbers import SIGNED, SIZE

from .expressions import TYPES
from .kernels import Generator
from .vectors import MOST_COST, Vector, VectorExpressions

SPACES = {'vin': '__global const ', 'vout': '__global ', 'vt': '__local '}
REACHED = {'vin': 4, 'p': 2}


class VectorHelper:
    """A function with a pointer to vectors: its name, to which buffer the pointer leads (`p` for a private array), the
    type of the vectors, how many numbers it takes, and what a call costs."""

    def __init__(self, text, leads_to, kind, count, cost):
        self.text, self.leads_to, self.kind, self.count, self.cost = text, leads_to, kind, count, cost


class VectorStatements(VectorExpressions):
    """The part of the generator for statements on vectors."""

    def target(self):
        """A target: its text, the type of its components and how many there are; or None."""
        choices = [(each.text, each.name, each.count) for each in self.vectors]
        choices += [('%s[%s]' % (each.text, self.index(1, 1)), each.name, each.count)
                    for each in self.vector_arrays[-2:]]
        choices += [(self.pointed(each, 0), each.name, each.count) for each in self.pointers]
        if self.in_kernel:
            text = self.pick(['vout[g]', 'vout[g]', '*(vout + g)'])
            choices.append((text, *self.shared_types['vout']))
            if self.phase == 'write':
                choices.append(('vt[l]', *self.shared_types['vt']))
        if not choices:
            return None
        text, name, whole = self.pick(choices)
        if not self.chance(.45):
            return text, name, whole
        count = self.pick([each for each in (1, 2, 2, 4, 8, 16) if each <= whole])
        chosen = self.selection(whole, count, True)
        if not chosen:
            return text, name, whole
        if text.startswith('*'):
            text = '(%s)' % text
        between = [each for each in (2, 4, 8, 16) if count <= each <= whole]
        if between and self.chance(.2):
            width = self.pick(between)
            chosen = '%s.%s' % (self.selection(whole, width, True), self.selection(width, count, True))
        return '%s.%s' % (text, chosen), name, count

    def vector_statement(self, indent):
        """A statement on a vector or on one component, or None."""
        if self.cost > MOST_COST:
            return None
        front, kind = '  ' * indent, self.random.random()
        if kind < .3:
            return [front + self.vector_variable()]
        if kind < .36 and self.cost < MOST_COST / 2:
            return [front + line for line in self.vector_array()]
        found = self.target()
        if found is None:
            return None
        text, name, count = found
        self.cost += 8 * count
        is_bounded = self.is_plain and name in SIGNED
        marks = ['&', '|', '^'] + ([] if is_bounded else ['+', '-', '*', '+'] + ([] if self.is_plain else ['/', '%']))
        if count == 1:
            if not is_bounded and self.chance(.2):
                return [front + self.pick(['%s++;', '--%s;', '%s--;', '++%s;']) % text]
            marks += [''] + ([] if self.is_plain else ['<<', '>>'])
            return [front + '%s %s= %s;' % (text, self.pick(marks), self.expression(2, False, not self.is_plain))]
        if self.chance(.5):
            return [front + '%s = %s;' % (text, self.vector(name, count, 3 if count < 8 else 2))]
        right = self.number_for(name, 2) if self.chance(.35) else self.vector(name, count, 2)
        return [front + '%s %s= %s;' % (text, self.pick(marks + ['<<', '>>']), right)]

    def vector_variable(self):
        """The declaration of a vector."""
        name, count = self.new_type()
        made = Vector(self.new_name('w'), name, count)
        has_start = self.is_plain or self.chance(.85)
        line = '%s%d %s%s;' % (name, count, made.text, ' = ' + self.vector(name, count, 2) if has_start else '')
        self.cost += 8 * count
        self.vectors.append(made)
        return line

    def vector_array(self):
        """The declaration of an array of vectors, and what it starts with."""
        name, count = self.new_type()
        made = Vector(self.new_name('q'), name, count)
        lines = ['%s%d %s[2];' % (name, count, made.text)]
        if self.is_plain or self.chance(.5):
            lines += ['%s[%d] = %s;' % (made.text, at, self.vector(name, count, 1)) for at in range(2)]
        self.cost += 2 * count * SIZE[name]
        self.vector_arrays.append(made)
        return lines

    def uniform_vector(self, indent):
        """A vector that is the same in all items of a group: a declaration, or an assignment."""
        front = '  ' * indent
        if self.uniform_vectors_own and self.chance(.4):
            each = self.pick(self.uniform_vectors_own)
            return [front + '%s %s= %s;' % (each.text, self.pick(['', '^', '&', '|']),
                                           self.vector(each.name, each.count, 2, True))]
        name, count = self.new_type()
        made = Vector(self.new_name('x'), name, count)
        line = front + '%s%d %s = %s;' % (name, count, made.text, self.vector(name, count, 2, True))
        self.cost += 8 * count
        self.uniform_vectors.append(made)
        self.uniform_vectors_own.append(made)
        return [line]

    def vector_call(self, indent):
        """A call of a function with a pointer to vectors, or None."""
        if self.cost > MOST_COST:
            return None
        function, front = self.pick(self.vector_helpers), '  ' * indent
        if function.leads_to == 'vt' and self.phase != 'write':
            return None
        pointer = {'vin': 'vin', 'vout': 'vout + g', 'vt': 'vt + l'}.get(function.leads_to)
        if pointer is None:
            choices = [each.text for each in self.vector_arrays if each.is_of(*function.kind)]
            if not choices:
                return None
            pointer = self.pick(choices)
        self.cost += function.cost
        call = '%s(%s)' % (function.text, ', '.join([pointer] + [self.expression(1) for _ in range(function.count)]))
        if function.leads_to != 'vin':
            return [front + call + ';']
        if self.variables and self.chance(.5):
            return [front + '%s ^= %s;' % (self.pick(self.variables), call)]
        return [front + 'out[g] += %s;' % call]

    # In the place of the generator's own statements

    def statement(self, depth, indent):
        """A statement without a barrier."""
        found = None
        if self.chance(.38):
            found = self.vector_statement(indent)
        if not found and self.in_kernel and self.vector_helpers and self.chance(.08):
            found = self.vector_call(indent)
        return found or super().statement(depth, indent)

    def group_statement(self, depth, indent, in_loop=False):
        """A statement that may hold barriers."""
        found = None
        if self.chance(.3):
            found = self.vector_statement(indent)
        elif self.chance(.08) and self.cost < MOST_COST:
            found = self.uniform_vector(indent)
        elif self.vector_helpers and self.chance(.1):
            found = self.vector_call(indent)
        return found or super().group_statement(depth, indent, in_loop)

    def block(self, depth, indent):
        """Some statements, whose variables are forgotten behind them."""
        kept = len(self.vectors), len(self.vector_arrays)
        lines = super().block(depth, indent)
        del self.vectors[kept[0]:], self.vector_arrays[kept[1]:]
        return lines

    def group_block(self, depth, indent, in_loop):
        """Some statements between two barriers."""
        lists = (self.vectors, self.vector_arrays, self.uniform_vectors, self.uniform_vectors_own)
        kept = [len(each) for each in lists]
        lines = super().group_block(depth, indent, in_loop)
        for each, count in zip(lists, kept):
            del each[count:]
        return lines

    # Functions, and what the kernel has beyond others

    def more_helpers(self):
        """Functions with pointers to vectors."""
        lines = []
        for _ in range(self.pick([0, 1, 1, 2])):
            lines += self.vector_helper()
        self.vectors, self.vector_arrays, self.pointers = [], [], []
        return lines

    def vector_helper(self):
        """A function with a pointer to vectors."""
        leads_to = self.pick(['vin', 'vout', 'vt', 'p'])
        name, count = self.shared_types.get(leads_to) or self.new_type()
        space = SPACES.get(leads_to) or self.pick(['', '__private '])
        kinds = [self.pick(TYPES) for _ in range(self.random.randint(0, 2))]
        text, before = self.new_name('h'), self.cost
        self.enter(False, ['a%d' % at for at in range(len(kinds))], False, leads_to == 'vin', '-')
        self.vectors, self.vector_arrays = [], []
        self.pointers, lines = [Vector('p', name, count, REACHED.get(leads_to, 1))], []
        if leads_to == 'vin':
            made = Vector(self.new_name('w'), name, count)
            lines.append('  %s%d %s = %s;' % (name, count, made.text, self.vector(name, count, 1)))
            self.vectors.append(made)
            self.pointers = []
        for _ in range(self.random.randint(1, 3)):
            lines += self.vector_statement(1) or []
        if leads_to == 'vin':
            lines.append('  return %s;' % self.expression(2))
        taken = ['%s%s%d *%sp' % (space, name, count, self.pick(['', '', 'const ']))]
        taken += ['%s a%d' % (kind, at) for at, kind in enumerate(kinds)]
        result = self.pick(TYPES) if leads_to == 'vin' else 'void'
        cost = max(self.cost - before, 100)
        self.vector_helpers.append(VectorHelper(text, leads_to, (name, count), len(kinds), cost))
        self.pointers, self.cost = [], before
        return ['%s %s(%s) {' % (result, text, ', '.join(taken))] + lines + ['}']

    def more_parameters(self):
        """The buffers of vectors."""
        types = (*self.shared_types['vin'], *self.shared_types['vout'])
        return ', __global const %s%d *vin, __global %s%d *vout' % types

    def more_head(self):
        """The local array of vectors."""
        name, count = self.shared_types['vt']
        lines = ['  __local %s%d vt[%d];' % (name, count, self.items)]
        return lines + (['  vt[l] = (%s%d)(3);' % (name, count)] if self.is_plain else [])

    def more_end(self):
        """Stores a component of each vector, so that none is for nothing."""
        whole, lines = self.shared_types['vout'][1], []
        for each in self.vectors + self.uniform_vectors:
            chosen = self.selection(whole, 1), each.text, self.selection(each.count, 1)
            lines.append('  vout[g].%s ^= %s.%s;' % chosen)
        for each in self.vector_arrays:
            chosen = self.selection(whole, 1), each.text, self.selection(each.count, 1)
            lines.append('  vout[g].%s ^= %s[1].%s;' % chosen)
        return lines

    def more_data(self, total):
        """The bytes of the buffers of vectors."""
        (name, count), (other, width) = self.shared_types['vin'], self.shared_types['vout']
        return {'vin': self.data(name, 4 * count), 'vout': self.data(other, total * width)}


class VectorGenerator(VectorStatements, Generator):
    """Makes a kernel with vectors from a seed."""

    def __init__(self, seed):
        Generator.__init__(self, seed)
        self.start_vectors()
