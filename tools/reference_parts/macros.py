"""Follows directives and replaces names."""
from .refusals import SourceRefused
from .tokens import Token, kind_of, place_of

MOST_TOKENS = 65536
MOST_REPLACED = 1048576
FROM_THE_START = {
    'CHAR_BIT': '8', 'SCHAR_MAX': '127', 'CHAR_MAX': '127', 'SCHAR_MIN': '( - 127 - 1 )',
    'CHAR_MIN': '( - 127 - 1 )', 'SHRT_MAX': '32767', 'SHRT_MIN': '( - 32767 - 1 )',
    'INT_MAX': '2147483647', 'INT_MIN': '( - 2147483647 - 1 )',
    'LONG_MAX': '0x7fffffffffffffffL', 'LONG_MIN': '( - 0x7fffffffffffffffL - 1 )',
    'UCHAR_MAX': '255', 'USHRT_MAX': '65535', 'UINT_MAX': '0xffffffff', 'ULONG_MAX': '0xffffffffffffffffUL'}


class Conditional:
    """An open conditional: its `#`, whether its part is taken, and whether its `#else` was met."""

    def __init__(self, opened_at, is_taken):
        self.opened_at, self.is_taken, self.has_else = opened_at, is_taken, False


class Expansion:
    """The work on one source."""

    def __init__(self, source, tokens, defines):
        self.source, self.tokens = source, tokens
        self.replacements = {name: [(kind_of(word), word) for word in words.split()]
                             for name, words in FROM_THE_START.items()}
        self.conditionals, self.out, self.replaced = [], [], 0
        for name, value in defines:
            self.define(name, [('Number', str(value))], 0)

    def fail(self, number, at):
        """Refuses the source at a token."""
        start = self.tokens[at].start if at < len(self.tokens) else len(self.source)
        raise SourceRefused(number, *place_of(self.source, start))

    def define(self, name, words, at):
        """Gives a name its replacement."""
        if self.replacements.get(name, words) != words:
            self.fail(203, at)
        self.replacements[name] = words

    def is_active(self):
        """Whether no conditional around skips the text."""
        return all(each.is_taken for each in self.conditionals)

    def run(self):
        """The tokens that are left."""
        at = 0
        while at < len(self.tokens):
            token = self.tokens[at]
            if token.kind == 'Hash' and token.is_first:
                end = at + 1
                while end < len(self.tokens) and not self.tokens[end].is_first:
                    end += 1
                if end > at + 1:
                    self.directive(at, self.tokens[at + 1:end])
                at = end
                continue
            if self.is_active():
                self.text(token, at)
            at += 1
        if self.conditionals:
            self.fail(205, self.conditionals[-1].opened_at)
        return self.out

    def directive(self, at, words):
        """Follows one directive, whose `#` has this number."""
        word = words[0].word if words[0].kind == 'Name' else None
        if word in ('ifdef', 'ifndef'):
            is_there = self.name_of(at, words) in self.replacements
            self.conditionals.append(Conditional(at, is_there == (word == 'ifdef')))
        elif word == 'else':
            if not self.conditionals or self.conditionals[-1].has_else:
                self.fail(204, at)
            last = self.conditionals[-1]
            last.is_taken, last.has_else = not last.is_taken, True
        elif word == 'endif':
            if not self.conditionals:
                self.fail(204, at)
            self.conditionals.pop()
        elif word in ('if', 'elif'):
            self.fail(201, at)
        elif self.is_active():
            self.definition(word, at, words)

    def definition(self, word, at, words):
        """Follows a directive that a skipped part would drop."""
        if word == 'define':
            name = self.name_of(at, words)
            if len(words) > 2 and words[2].word == '(' and words[2].start == words[1].end:
                self.fail(201, at)
            self.define(name, [(each.kind, each.word) for each in words[2:]], at + 2)
        elif word == 'undef':
            self.replacements.pop(self.name_of(at, words), None)
        elif word != 'pragma':
            self.fail(201, at)

    def name_of(self, at, words):
        """The name that a directive needs."""
        if len(words) < 2 or words[1].kind != 'Name':
            self.fail(202, at)
        return words[1].word

    def put(self, token, at):
        """One more token that is left."""
        if len(self.out) >= MOST_TOKENS:
            self.fail(206, at)
        self.out.append(token)

    def count(self, at):
        """One more replaced name."""
        self.replaced += 1
        if self.replaced > MOST_REPLACED:
            self.fail(206, at)

    def text(self, token, at):
        """A token of the text, replaced where it is a name with a replacement."""
        if token.kind != 'Name' or token.word not in self.replacements:
            self.put(token, at)
            return
        self.count(at)
        inside = {token.word}
        stack = [[self.replacements[token.word], 0, token.word]]
        while stack:
            top = stack[-1]
            if top[1] == len(top[0]):
                inside.discard(top[2])
                stack.pop()
                continue
            kind, word = top[0][top[1]]
            top[1] += 1
            if kind == 'Name' and word in self.replacements and word not in inside:
                self.count(at)
                inside.add(word)
                stack.append([self.replacements[word], 0, word])
            else:
                self.put(Token(kind, word, token.start, token.end, False), at)


def expand(source, tokens, defines):
    """The tokens that are left of a source, to which these names and numbers are given."""
    return Expansion(source, tokens, defines).run()
