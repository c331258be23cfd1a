"""Random expressions on numbers. `is_uniform` asks for one that is the same in all items of a group."""

TYPES = ['char', 'uchar', 'short', 'ushort', 'int', 'uint', 'long', 'ulong']
CAST_TYPES = TYPES + ['bool', 'unsigned', 'unsigned char', 'short int', 'size_t']
OPERATORS = ['+', '-', '*', '/', '%', '&', '|', '^', '<<', '>>', '==', '!=', '<', '>', '<=', '>=']
OF_ONE = ['abs', 'clz', 'popcount']
OF_TWO = ['abs_diff', 'min', 'max', 'add_sat', 'sub_sat', 'hadd', 'rhadd', 'mul_hi', 'rotate']
VALUES = [0, 1, 2, 3, 5, 7, 8, 31, 32, 33, 63, 100, 127, 128, 255, 256, 32767, 65535, 65536, 2147483647, 2147483648,
          4294967295]
NAMED_VALUES = ['INT_MIN', 'INT_MAX', 'LONG_MIN', 'UINT_MAX', 'CHAR_MIN', 'true', 'false', 'sizeof(long)',
                'sizeof(uchar)']


class Expressions:
    """The part of the generator for expressions. `has_effects` lets an expression assign."""

    def chance(self, part):
        """Whether something happens that does so in this part of all cases."""
        return self.random.random() < part

    def pick(self, choices):
        """One of some choices."""
        return self.random.choice(choices)

    def literal(self):
        """A number as it is written."""
        if 'defines' in self.extras and self.chance(.15):
            return self.pick(['SOME', 'GIVEN'])
        value = self.pick(VALUES + [self.random.randint(0, 2**31), self.random.randint(0, 2**63 - 1)])
        text = self.pick(['%d', '%d', '0x%x']) % value + self.pick(['', '', '', '', 'u', 'L', 'UL', 'l', 'lu'])
        if self.chance(.1):
            text = '(-%s)' % text
        return self.pick(NAMED_VALUES) if self.chance(.05) else text

    def expression(self, depth, is_uniform=False, has_effects=False):
        """An expression that nests at most so deep."""
        if depth <= 0 or self.chance(.12):
            return self.leaf(is_uniform)

        def inner():
            return self.expression(depth - 1, is_uniform, has_effects)
        kind = self.random.random()
        if kind < .42:
            return '(%s %s %s)' % (inner(), self.pick(OPERATORS), inner())
        if kind < .50:
            return '%s(%s)' % (self.pick(['-', '~', '!', '+']), inner())
        if kind < .58:
            return '(%s)(%s)' % (self.pick(CAST_TYPES), inner())
        if kind < .66:
            return self.built_in(inner)
        if kind < .74:
            return '(%s ? %s : %s)' % (inner(), inner(), inner())
        if kind < .80:
            return '(%s %s %s)' % (inner(), self.pick(['&&', '||']), inner())
        if kind < .83:
            return '(%s, %s)' % (inner(), inner())
        if kind < .90 and has_effects and not is_uniform and self.variables:
            return self.effect(inner)
        functions = [each for each in self.functions if not each.has_barrier]
        if kind < .96 and functions and not is_uniform:
            return self.call(self.pick(functions), depth)
        return self.load(depth - 1, is_uniform, has_effects)

    def built_in(self, inner):
        """A call of a built-in function."""
        if self.chance(.6):
            return '%s(%s, %s)' % (self.pick(OF_TWO), inner(), inner())
        if self.chance(.2):
            return 'clamp(%s, %s, %s)' % (inner(), inner(), inner())
        return '%s(%s)' % (self.pick(OF_ONE), inner())

    def effect(self, inner):
        """An expression that assigns to a variable."""
        name = self.pick(self.variables)
        mark = self.pick(['', '+', '-', '^', '*', '>>', '|', '%', '/'])
        return self.pick(['(%s %s= %s)' % (name, mark, inner()), '%s++' % name, '--%s' % name, '(%s)++' % name])

    def call(self, function, depth):
        """A call of a function of the source without a barrier."""
        return '%s(%s)' % (function.name, ', '.join(self.expression(depth - 2) for _ in range(function.count)))

    def load(self, depth, is_uniform, has_effects):
        """An element of some memory."""
        index = self.expression(depth, is_uniform, has_effects)
        if self.in_kernel and 'constant' in self.extras and self.chance(.25):
            return 'con[(%s) & 7]' % index
        if is_uniform:
            return 'tab[(%s) & 7]' % index
        kind = self.random.random()
        if kind < .3 and self.in_kernel:
            return 'in[(%s) & 31]' % index
        if kind < .45:
            return 'tab[(%s) & 7]' % index
        if kind < .55 and self.arrays:
            return self.element(self.pick(self.arrays), index)
        if not self.in_kernel:
            return 'tab[(%s) & 7]' % index
        local = ['loc'] if 'local' in self.extras else []
        if self.phase != 'read':
            return '%s[l]' % self.pick(['t', 'sh'] + local) if self.chance(.7) else 'out[g]'
        return '%s[(uint)(%s) %% %du]' % (self.pick(['t', 't', 'sh'] + local), index, self.items)

    def element(self, name, index):
        """An element of an array, or of an array of rows."""
        if name.startswith('m'):
            return '%s[(%s) & 1][%d]' % (name, index, self.random.randint(0, 2))
        return '%s[(%s) & 3]' % (name, index)

    def leaf(self, is_uniform):
        """A number, a variable, or what a work-item function gives."""
        if self.chance(.3):
            return self.literal()
        names = list(self.uniform)
        if self.in_kernel:
            names += ['n', 'get_group_id(%d)' % self.random.randint(0, 3), 'get_local_size(0)', 'get_num_groups(1)',
                      'get_work_dim()', 'get_global_offset(0)']
        if not is_uniform:
            names += self.variables
            if self.in_kernel:
                names += ['l', 'g', 'get_local_id(1)', 'get_global_id(0)']
        return self.pick(names) if names else self.literal()

    def uniform_in_function(self, depth):
        """An expression in a function of the source, of its variables and the table alone."""
        kept, self.uniform = self.uniform, list(self.variables)
        made = self.expression(depth, True)
        self.uniform = kept
        return made
