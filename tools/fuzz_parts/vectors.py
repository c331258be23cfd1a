"""Random expressions that are short vectors.

In them: variables, private and local arrays of vectors, elements of global buffers, selections as source and target (of
variables, elements, selections and expressions in parentheses), lists, operators and built-in functions, mixes with
numbers, and one component in the place of a number. `name` is the type of the components, `count` how many there are.
What a kernel costs when its vectors are taken apart is bounded, since a kernel may be too large."""
from reference_parts.numbers import BITS, SIGNED, SIGNED_OF, UNSIGNED_OF

WIDTHS = [(2, 4), (4,), (2, 4, 8), (4, 8), (8, 16), (2, 16), (4, 4, 16)]
LETTERS = 'xyzw'
MOST_COST = 5000
SHARED = ('vin', 'vout', 'vt')
BUILT_IN = ['min', 'max', 'add_sat', 'sub_sat', 'hadd', 'rhadd', 'mul_hi', 'rotate', 'clz', 'popcount', 'clamp']
COMPARISONS = ['==', '!=', '<', '>', '<=', '>=']


class Vector:
    """A variable, an array or a pointer of vectors; `length` is how many elements a pointer reaches."""

    def __init__(self, text, name, count, length=2):
        self.text, self.name, self.count, self.length = text, name, count, length

    def is_of(self, name, count):
        """Whether its vectors have this type."""
        return (self.name, self.count) == (name, count)


class VectorExpressions:
    """The part of the generator for vectors. `is_plain` keeps to what OpenCL defines."""

    is_plain = False

    def start_vectors(self):
        """Chooses the types of vectors of a kernel."""
        base = self.pick(['uchar', 'ushort', 'uint', 'ulong'])
        self.elements = [base, SIGNED_OF[base], self.pick(['uint', 'uchar', 'ushort', 'ulong'])]
        self.widths = sorted(set(self.pick(WIDTHS)))
        self.shared_types = {text: self.new_type() for text in SHARED}
        if self.chance(.6):
            self.shared_types['vt'] = self.shared_types['vout']
        self.vectors, self.uniform_vectors, self.uniform_vectors_own, self.vector_arrays = [], [], [], []
        self.vector_helpers, self.pointers = [], []
        self.cost = self.inside = 0

    def new_type(self):
        """A type of components and how many there are."""
        return self.pick(self.elements), self.pick(self.widths)

    def number_for(self, name, depth, is_uniform=False):
        """A number that is mixed with vectors of these components."""
        has_effects = not self.is_plain and not is_uniform and self.chance(.3)
        made = self.expression(depth, is_uniform, has_effects)
        return '(%s)' % made if not self.is_plain and self.chance(.5) else '(%s)(%s)' % (name, made)

    def selection(self, whole, count, is_target=False):
        """A selection of so many components of a vector, or None."""
        choices = ['lo', 'hi', 'even', 'odd'] if 2 * count == whole else []
        for _ in range(4):
            numbers = [self.random.randrange(whole) for _ in range(count)]
            if is_target or self.chance(.4):
                if count > whole:
                    continue
                numbers = self.random.sample(range(whole), count)
            if whole <= 4:
                choices.append(''.join(LETTERS[number] for number in numbers))
            choices.append('s' + ''.join(self.pick(['%x', '%X']) % number for number in numbers))
        return self.pick(choices) if choices else None

    # Leaves

    def index(self, depth, mask):
        """An index below a power of two."""
        has_effects = not self.is_plain and self.chance(.2)
        return '(%s) & %d' % (self.expression(min(depth, 1), False, has_effects), mask)

    def shared_element(self, text, depth):
        """An element of a buffer, or of local memory."""
        if text == 'vin':
            return 'vin[%s]' % self.index(depth, 3)
        if text == 'vout':
            return self.pick(['vout[g]', 'vout[g]', '(*(vout + g))'])
        return 'vt[(uint)(%s) %% %du]' % (self.expression(1), self.items) if self.phase == 'read' else 'vt[l]'

    def pointed(self, vector, depth):
        """An element to which a pointer parameter leads."""
        if vector.length == 1:
            return self.pick(['%s[0]', '(*%s)']) % vector.text
        return '%s[%s]' % (vector.text, self.index(depth, vector.length - 1))

    def vector_leaf(self, name, count, depth, is_uniform):
        """A variable, an element, a selection or a list."""
        self.cost += 8 * count
        visible = self.uniform_vectors if is_uniform else self.vectors + self.uniform_vectors
        own = [each.text for each in visible if each.is_of(name, count)]
        makes = [lambda: self.pick(own)] * (3 if own else 0)
        if not is_uniform:
            if self.in_kernel:
                makes += [lambda text=text: self.shared_element(text, depth) for text in SHARED
                          if self.shared_types[text] == (name, count)]
            makes += [lambda each=each: '%s[%s]' % (each.text, self.index(depth, 1)) for each in self.vector_arrays
                      if each.is_of(name, count)]
            makes += [lambda each=each: self.pointed(each, depth) for each in self.pointers if each.is_of(name, count)]
        sources = [(each.text, each.count) for each in visible if each.name == name]
        if not is_uniform and self.in_kernel:
            sources += [(text, self.shared_types[text][1]) for text in SHARED if self.shared_types[text][0] == name]
        if sources:
            makes += [lambda: self.selected(sources, name, count, depth, is_uniform)] * 2
        makes.append(lambda: self.list_of(name, count, depth, is_uniform))
        return self.pick(makes)()

    def selected(self, sources, name, count, depth, is_uniform):
        """A selection of one of some vectors."""
        text, whole = self.pick(sources)
        chosen = self.selection(whole, count)
        if chosen is None:
            return self.list_of(name, count, depth, is_uniform)
        base = self.shared_element(text, depth) if text in SHARED else text
        self.cost += 8 * whole
        if self.chance(.2):
            between = self.pick([2, 4, 8, 16])
            first, second = self.selection(whole, between), self.selection(between, count)
            if first and second:
                return '%s.%s.%s' % (base, first, second)
        return '%s.%s' % (base, chosen)

    def list_of(self, name, count, depth, is_uniform):
        """A list of components."""
        has_effects = not self.is_plain and not is_uniform
        if self.chance(.35):
            return '(%s%d)(%s)' % (name, count, self.expression(max(depth - 1, 0), is_uniform, has_effects))
        parts, left, is_cheap = [], count, count > 4
        while left:
            width = self.pick([each for each in (1, 1, 2, 4, 8) if each <= left])
            if is_cheap and self.chance(.7):
                width = max(each for each in (1, 2, 4, 8) if each <= left)
            if width == count:
                width = count // 2
            if width == 1 or (depth <= 0 and width not in self.widths):
                for _ in range(width):
                    parts.append(self.expression(0 if is_cheap else max(depth - 1, 0), is_uniform,
                                                 has_effects and self.chance(.2)))
            else:
                parts.append(self.vector(name, width, depth - 1, is_uniform))
            left -= width
        return '(%s%d)(%s)' % (name, count, ', '.join(parts))

    # Expressions

    def vector(self, name, count, depth, is_uniform=False):
        """A vector that nests at most so deep."""
        self.inside += 1
        made = self.vector_within(name, count, depth, is_uniform)
        self.inside -= 1
        return made

    def vector_within(self, name, count, depth, is_uniform):
        """The same, inside a vector."""
        if depth <= 0 or self.chance(.2) or self.cost > MOST_COST:
            return self.vector_leaf(name, count, depth, is_uniform)

        def inner():
            return self.vector(name, count, depth - 1, is_uniform)
        is_signed, kind = name in SIGNED, self.random.random()
        if kind < .34:
            return self.arithmetic(name, count, inner, depth, is_uniform)
        if kind < .44:
            return self.shift(name, inner, depth, is_uniform)
        if kind < .50:
            return '%s(%s)' % (self.pick(['~'] if self.is_plain and is_signed else ['-', '~', '+']), inner())
        if kind < .64 and is_signed:
            return self.comparison(name, count, depth, is_uniform)
        if kind < .80:
            return self.vector_built_in(name, count, inner, depth, is_uniform)
        if kind < .86:
            return '(%s)' % inner()
        if kind < .91:
            whole = self.pick([each for each in (2, 4, 8, 16) if each <= 2 * count])
            chosen = self.selection(whole, count)
            if chosen:
                return '(%s).%s' % (self.vector(name, whole, depth - 1, is_uniform), chosen)
        return self.vector_leaf(name, count, depth, is_uniform)

    def arithmetic(self, name, count, inner, depth, is_uniform):
        """An operator on two vectors, or on one and a number."""
        is_signed = name in SIGNED
        mark = self.pick(['&', '|', '^'] if self.is_plain and is_signed else
                         ['+', '-', '*', '/', '%', '&', '|', '^', '+', '*'])
        kind = self.random.random()
        left = inner() if kind < .85 else self.number_for(name, depth - 1, is_uniform)
        right = inner() if kind < .6 or kind >= .85 else self.number_for(name, depth - 1, is_uniform)
        if self.is_plain and mark in '/%':
            right = '(%s | (%s%d)(1))' % (inner(), name, count)
            if kind >= .85:
                left = '(%s%d)(%s)' % (name, count, left)
        return '(%s %s %s)' % (left, mark, right)

    def shift(self, name, inner, depth, is_uniform):
        """A shift by a vector or a number."""
        left, kind = inner(), self.random.random()
        right = inner() if kind < .5 else self.number_for(name, depth - 1, is_uniform)
        if not self.is_plain and kind > .9:
            left, right = right, left
        return '(%s %s %s)' % (left, self.pick(['<<', '>>']), right)

    def comparison(self, name, count, depth, is_uniform):
        """A comparison, whose components are signed."""
        compared = self.pick([name, UNSIGNED_OF[name]])
        left = self.vector(compared, count, depth - 1, is_uniform)
        if self.chance(.7):
            right = self.vector(compared, count, depth - 1, is_uniform)
        else:
            right = self.number_for(compared, depth - 1, is_uniform)
        if self.chance(.1):
            left, right = right, left
        return '(%s %s %s)' % (left, self.pick(COMPARISONS), right)

    def vector_built_in(self, name, count, inner, depth, is_uniform):
        """A built-in function on vectors."""
        if name not in SIGNED and self.chance(.3):
            taken = self.pick([name, SIGNED_OF[name]])
            one = self.vector(taken, count, depth - 1, is_uniform)
            if self.chance(.5):
                return 'abs(%s)' % one
            return 'abs_diff(%s, %s)' % (one, self.vector(taken, count, depth - 1, is_uniform))
        text = self.pick(BUILT_IN)
        if text in ('clz', 'popcount'):
            return '%s(%s)' % (text, inner())
        if text == 'clamp':
            if self.is_plain:
                three = '(%s%d)(3)' % (name, count)
                return 'clamp(%s, min(%s, %s), max(%s, %s))' % (inner(), inner(), three, three, inner())
            return 'clamp(%s, %s, %s)' % (inner(), inner(), inner())
        second = inner()
        if text == 'rotate' and self.is_plain:
            second = '%s & (%s%d)(%d)' % (second, name, count, BITS[name] - 1)
        return '%s(%s, %s)' % (text, inner(), second)

    # In the place of numbers

    def component(self):
        """One component of a vector, or None."""
        choices = [(each.text, each.count) for each in self.vectors[-6:] + self.uniform_vectors[-2:]]
        choices += [('%s[%d]' % (each.text, self.random.randint(0, 1)), each.count) for each in self.vector_arrays[-2:]]
        choices += [('%s[0]' % each.text, each.count) for each in self.pointers]
        if self.in_kernel:
            local = 'vt[%d]' % self.random.randrange(self.items) if self.phase == 'read' else 'vt[l]'
            choices += [('vin[%d]' % self.random.randint(0, 3), self.shared_types['vin'][1]),
                        ('vout[g]', self.shared_types['vout'][1]), (local, self.shared_types['vt'][1])]
        if not choices:
            return None
        text, whole = self.pick(choices)
        if self.chance(.15):
            between = self.selection(whole, 2)
            if between:
                last = self.pick(['x', 'y', 's0', 's1', 'lo', 'hi', 'even', 'odd'])
                return '%s.%s.%s' % (text, between, last)
        return '%s.%s' % (text, self.selection(whole, 1))

    def leaf(self, is_uniform):
        """A number, which may be a component."""
        found = None
        if not is_uniform and self.chance(.1 if self.inside else .22):
            found = self.component()
        elif is_uniform and self.uniform_vectors and self.in_kernel and self.chance(.2):
            each = self.pick(self.uniform_vectors)
            found = '%s.%s' % (each.text, self.selection(each.count, 1))
        if found is None:
            return super().leaf(is_uniform)
        return self.of_known_type(found)

    def of_known_type(self, text):
        """An expression whose type the generator of plain kernels has to know."""
        return text
