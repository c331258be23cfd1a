"""How a command ends other than by its result: refusals of sources and of launch files, and other statuses."""

SOURCE_TEXTS = {
    101: 'no token', 102: 'unfinished comment', 103: 'malformed number', 104: 'number too large',
    105: 'source too long',
    201: 'directive not in the profile', 202: 'name missing', 203: 'defined twice', 204: 'no opening',
    205: 'conditional not closed', 206: 'too many tokens',
    301: 'syntax', 302: 'nested too deep',
    401: 'unknown name', 402: 'declared twice', 403: 'operand types do not fit', 404: 'argument count',
    405: 'argument type', 406: 'not assignable', 407: 'constant memory written',
    408: 'type outside the profile', 409: 'local variable misplaced', 410: 'program variable',
    411: 'kernel signature', 412: 'recursion', 413: 'pointer root changes', 414: 'array length',
    415: 'misplaced statement', 416: 'case value', 417: 'return does not fit', 418: 'barrier flags',
    419: 'kernel too large', 420: 'private memory', 421: 'barriers too deep', 422: 'no such kernel',
    423: 'local memory', 424: 'prototype does not match',
    501: 'vector misplaced', 502: 'no such component', 503: 'component types differ',
}

LAUNCH_TEXTS = {
    1: 'not TOML', 2: 'unknown key', 3: 'key missing or wrong', 4: 'sizes', 5: 'argument count',
    6: 'argument kind', 7: 'value out of range', 8: 'unknown buffer', 9: 'buffer named twice',
    10: 'saved twice', 11: 'constant buffer shared', 12: 'required size', 13: 'local memory',
    14: 'buffers', 15: 'lanes', 16: 'turns', 17: 'launches', 18: 'other kernel',
}

STATUS_TEXTS = {1: 'cannot read or write', 2: 'usage', 8: 'out of memory', 9: 'no such file'}


class SourceRefused(Exception):
    """A source is refused, with a number, at a line and a column."""

    def __init__(self, number, line, column):
        super().__init__(number, line, column)
        self.number, self.line, self.column = number, line, column


class LaunchRefused(Exception):
    """A launch file is refused, with a number."""

    def __init__(self, number):
        super().__init__(number)
        self.number = number


class Ended(Exception):
    """A command ends with one of the statuses of `STATUS_TEXTS`."""

    def __init__(self, status):
        super().__init__(status)
        self.status = status
