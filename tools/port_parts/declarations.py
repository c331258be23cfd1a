"""Declarations, types and functions are read from tokens."""
from . import types
from .constants import constant
from .notes import Refused
from .tree import Symbol
from .types import Array, Pointer, Scalar, Struct

SPACES = {'__global': 'global', 'global': 'global', '__local': 'local', 'local': 'local', '__constant': 'constant',
          'constant': 'constant', '__private': 'private', 'private': 'private'}
STORAGE = ('typedef', 'static', 'extern', 'inline', '__inline', '__inline__', 'register', 'auto', '__kernel', 'kernel',
           '__extension__')
QUALIFIERS = ('const', '__const', '__const__', 'volatile', '__volatile__', 'restrict', '__restrict', '__restrict__',
              '__read_only', '__write_only', 'read_only', 'write_only')
CONSTS = ('const', '__const', '__const__')
NUMBER_WORDS = ('unsigned', 'signed', 'char', 'short', 'int', 'long', '__signed__')
KEPT_ATTRIBUTES = ('reqd_work_group_size', 'work_group_size_hint')


class Specifiers:
    """What stands in front of declarators."""

    def __init__(self, token):
        self.token, self.storage, self.space, self.is_const = token, set(), None, False
        self.type, self.attributes, self.is_packed = None, [], False


class Declarations:
    """The part of the reader that reads declarations."""

    def starts_type(self, ahead):
        """Whether a type or a declaration begins there."""
        token = self.peek(ahead)
        if token.kind != 'name':
            return False
        word = token.text
        if word in SPACES or word in STORAGE or word in QUALIFIERS or word in NUMBER_WORDS:
            return True
        if word in ('void', 'struct', 'union', 'enum', '__attribute__') and word != '__attribute__':
            return True
        symbol = self.scope.find(word)
        return symbol.kind == 'typedef' if symbol is not None else types.named_type(word) is not None

    def specifiers(self):
        """The words in front of declarators."""
        found, words = Specifiers(self.peek()), []
        while self.peek().kind == 'name':
            word = self.peek().text
            if word in SPACES and not (found.type or words) or word in SPACES:
                found.space = SPACES[self.take().text]
            elif word in STORAGE:
                self.storage_word(found)
            elif word in QUALIFIERS:
                found.is_const = self.take().text in CONSTS or found.is_const
            elif word == '__attribute__':
                self.attributes(found)
            elif word in NUMBER_WORDS:
                words.append(self.take().text)
            elif found.type is None and not words and self.starts_type(0):
                self.named_or_tagged(found)
            else:
                break
        if words:
            found.type = Scalar(number_word(words, found.token))
        if found.type is None:
            symbol = self.scope.find(self.peek().text)
            if symbol is not None and symbol.kind == 'refused':
                raise symbol.refused
            raise Refused(found.token, 'syntax: a type is expected at %r' % self.peek().text)
        return found

    def storage_word(self, found):
        """A word about storage."""
        token = self.take()
        found.storage.add(token.text.strip('_'))
        if token.text in ('register', 'auto', '__inline', '__inline__', '__extension__'):
            self.notes.add('`%s` left out' % token.text, token)

    def named_or_tagged(self, found):
        """A type that is a name, a structure or an enumeration."""
        token = self.take()
        if token.text == 'void':
            found.type = types.VOID
        elif token.text in ('struct', 'union'):
            found.type = self.structure(token)
        elif token.text == 'enum':
            found.type = self.enumeration(token)
        else:
            symbol = self.scope.find(token.text)
            found.type = symbol.type if symbol is not None else types.named_type(token.text)
            if symbol is not None and symbol.space != 'private':
                found.space = symbol.space
            if symbol is not None:
                self.notes.add('typedef %s written out' % token.text, token)
            elif token.text in types.ALIASES and token.text != 'size_t':
                self.notes.add('%s is %s' % (token.text, types.ALIASES[token.text]), token)
            elif isinstance(found.type, types.Vector) and found.type.count == 3:
                self.notes.add('%s is a vector of four' % token.text, token)

    def attributes(self, found=None):
        """`__attribute__((..))`: the group sizes of kernels are kept, the others are left out."""
        while self.peek().text == '__attribute__':
            start = self.take()
            depth, inner = 0, []
            while True:
                token = self.take()
                depth += {'(': 1, ')': -1}.get(token.text, 0)
                inner.append(token)
                if depth == 0:
                    break
            words = [token.text for token in inner]
            if found is not None and any(word in words for word in KEPT_ATTRIBUTES):
                found.attributes.append(inner)
                continue
            if 'packed' in words or '__packed__' in words:
                if found is not None:
                    found.is_packed = True
            elif 'aligned' in words or 'vector_size' in words or 'ext_vector_type' in words:
                if found is None or not found.storage & {'kernel'}:
                    self.aligned = start
            self.notes.add('__attribute__ left out', start)

    def structure(self, token):
        """`struct` or `union`, with its fields or without."""
        found = Specifiers(token)
        self.attributes(found)
        tag = self.take().text if self.peek().kind == 'name' else None
        kind = self.scope.find_tag(tag) if tag else None
        if kind is None or self.is_next('{') and self.scope.tags.get(tag) is None:
            kind = Struct(tag or 'struct at line %s' % token.where(), token.text == 'union')
            if tag:
                self.scope.tags[tag] = kind
        if self.is_next('{'):
            self.take()
            self.aligned = None
            fields = []
            while not self.is_next('}'):
                fields += self.fields()
            self.take()
            self.attributes(found)
            if self.aligned is not None:
                raise Refused(token, 'a structure with an alignment of its own')
            kind.lay_out(fields, found.is_packed)
        return kind

    def fields(self):
        """The fields of one declaration in a structure."""
        found, fields = self.specifiers(), []
        while True:
            name, kind = self.declarator(found.type, found)
            if self.is_next(':'):
                raise Refused(self.peek(), 'a field of bits')
            if types.size_of(kind) is None or any(not types.is_number(leaf) for leaf, _ in types.leaves(kind)):
                raise Refused(name or found.token, 'a field that is no number', 'struct_in_a_buffer')
            fields.append((name.text, kind))
            self.attributes()
            if not self.is_next(','):
                break
            self.take()
        self.expect(';')
        return fields

    def enumeration(self, token):
        """`enum`: its names become numbers."""
        self.attributes()
        tag = self.take().text if self.peek().kind == 'name' else None
        if not self.is_next('{'):
            kind = self.scope.find_tag(tag)
            if kind is None:
                raise Refused(token, 'the enumeration %s is not known' % tag)
            return kind
        self.take()
        symbols, value, kind = [], -1, types.INT
        while not self.is_next('}'):
            name = self.take()
            value += 1
            if self.is_next('='):
                self.take()
                found = constant(self.conditional())
                if found is None:
                    raise Refused(name, 'the value of %s' % name, 'enum')
                value = found[0]
            symbol = Symbol('enumerator', name.text, types.INT, name)
            symbol.value = value
            self.scope.names[name.text] = symbol
            symbols.append(symbol)
            if self.is_next(','):
                self.take()
        self.take()
        self.attributes()
        kind = enumeration_type([symbol.value for symbol in symbols])
        for symbol in symbols:
            symbol.type = types.INT if -2**31 <= symbol.value < 2**31 else kind
        self.notes.add('enum written out as numbers', token)
        if tag:
            self.scope.tags[tag] = kind
        return kind

    def type_name(self):
        """A type without a name, as in a cast."""
        found = self.specifiers()
        name, kind = self.declarator(found.type, found)
        if name is not None:
            raise Refused(name, 'syntax: a name in a type')
        return kind

    def declarator(self, base, found):
        """The name that is declared, or None, and its type."""
        kind = base
        is_first = True
        while self.is_next('*'):
            self.take()
            kind = Pointer(kind, (found.space or 'private') if is_first else 'private', found.is_const and is_first)
            is_first = False
            while self.peek().text in QUALIFIERS or self.peek().text in SPACES or self.peek().text == '__attribute__':
                if self.peek().text == '__attribute__':
                    self.attributes()
                else:
                    self.take()
        if isinstance(kind, Pointer) and isinstance(kind.to, Pointer):
            raise Refused(found.token, 'a pointer to a pointer')
        inner = None
        if self.is_next('(') and self.peek(1).text == '*':
            if self.peek(3).text == ')' and self.peek(4).text == '[':
                self.take()
                self.take()
                name = self.take()
                self.take()
                to = self.arrays(kind)
                return name, Pointer(to, found.space or 'private', found.is_const)
            raise Refused(found.token, 'a pointer to a function')
        self.attributes(found)
        name = self.take() if self.peek().kind == 'name' and not self.starts_type(0) else inner
        return name, self.arrays(kind)

    def arrays(self, kind):
        """The lengths behind a name."""
        lengths = []
        while self.is_next('['):
            start = self.take()
            if self.is_next(']'):
                self.take()
                lengths.append(None)
                continue
            while self.peek().text in ('static', 'const', 'restrict'):
                self.take()
            found = constant(self.expression())
            if found is None or found[0] <= 0:
                raise Refused(start, 'the length of an array is no constant above 0')
            lengths.append(found[0])
            self.expect(']')
        for length in reversed(lengths):
            if isinstance(kind, Array) and isinstance(kind.of, Pointer):
                raise Refused(self.peek(), 'an array of arrays of pointers')
            kind = Array(kind, length)
        return kind

    def initial(self):
        """What a variable starts as: an expression, or a list in braces."""
        if not self.is_next('{'):
            return self.assignment()
        start = self.take()
        items = []
        while not self.is_next('}'):
            places = []
            while self.is_next('[') or self.is_next('.'):
                is_field = self.take().text == '.'
                if is_field:
                    places.append(self.take().text)
                else:
                    places.append(constant(self.expression())[0])
                    self.expect(']')
            if places:
                self.expect('=')
            item = self.initial()
            item.places = places
            items.append(item)
            if self.is_next(','):
                self.take()
        self.take()
        return self.made('list', start, None, items=items)


def number_word(words, token):
    """The type of words as `unsigned long`."""
    sizes = [word for word in words if word in ('char', 'short', 'long')]
    if len(set(sizes)) > 1 or words.count('long') > 2:
        raise Refused(token, 'the type %s' % ' '.join(words))
    name = sizes[0] if sizes else 'int'
    return types.UNSIGNED[name] if 'unsigned' in words else name


def enumeration_type(values):
    """The type of an enumeration with these values."""
    least, largest = min(values, default=0), max(values, default=0)
    for name in ('uint', 'int', 'ulong', 'long') if least >= 0 else ('int', 'long'):
        bits = 8 * types.SIZES[name] - types.is_signed(name)
        if largest < 1 << bits and least >= (-1 << bits if types.is_signed(name) else 0):
            return Scalar(name)
    return types.ULONG
