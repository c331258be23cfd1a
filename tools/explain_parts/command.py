"""The words of a command, and what is wrong with them."""
from explain_parts.findings import Finding, counted, near

# How many names of files each command has in front of its options, and which options it takes.
COMMANDS = {
    'run': (('SOURCE', 'LAUNCH'), {'--lanes', '--turns', '--cache'}),
    'plan': (('SOURCE', 'LAUNCH'), set()),
    'code': (('SOURCE', 'LAUNCH'), {'--lanes'}),
    'build': (('SOURCE', 'LAUNCH', 'OBJECT'), {'--lanes'}),
    'exec': (('OBJECT', 'LAUNCH'), {'--turns'}),
    'sample': (('NUMBER',), set()),
}


class Words:
    """The words of a command: which command, and the files that it names."""

    def __init__(self, words):
        self.words = words
        self.command = words[0] if words else ''
        self.has_source = self.command in ('run', 'plan', 'code', 'build')
        has_launch = self.has_source or self.command == 'exec'
        self.source = words[1] if has_launch and len(words) > 2 else None
        self.launch = words[2] if has_launch and len(words) > 2 else None
        self.object = words[3] if self.command == 'build' and len(words) > 3 else None

    def option(self, name):
        """The word behind an option, or None."""
        for at, word in enumerate(self.words):
            if word == name and at + 1 < len(self.words):
                return self.words[at + 1]
            if word.startswith(name + '='):
                return word[len(name) + 1:]
        return None


def wrong_words(words):
    """What is said of status 2."""
    if not words.words:
        return [Finding('No command is given.')]
    if words.command not in COMMANDS:
        found = near(words.command, COMMANDS)
        return [Finding('`%s` is no command.%s' % (words.command, ' Near it: `%s`.' % found[0] if found else ''))]
    names, options = COMMANDS[words.command]
    rest = words.words[1:]
    given = next((at for at, word in enumerate(rest) if word.startswith('--') and at >= len(names)), len(rest))
    if given < len(names):
        return [Finding('`%s` has %s behind it: %s is missing.'
                        % (words.command, ' '.join(names), ' '.join(names[given:])))]
    if given > len(names):
        return [Finding('`%s` has %s behind it; `%s` is one word too many.'
                        % (words.command, ' '.join(names), rest[len(names)]))]
    return wrong_options(words.command, options, rest[given:])


def wrong_options(command, options, rest):
    """What is wrong with the options behind the names."""
    at = 0
    taken = set()
    while at < len(rest):
        name, _, value = rest[at].partition('=')
        if name not in options:
            listed = ', '.join('`%s`' % option for option in sorted(options))
            take = 'takes %s' % (listed or 'no option')
            return [Finding('`%s` is no option of `%s`, which %s.' % (rest[at], command, take))]
        if name in taken:
            return [Finding('`%s` is given twice.' % name)]
        taken.add(name)
        if name != '--cache' and '=' not in rest[at]:
            at += 1
            value = rest[at] if at < len(rest) else ''
        if name != '--cache' and not value.lstrip('-').isdigit():
            return [Finding('Behind `%s` stands a number%s.' % (name, ', and `%s` is none' % value if value else ''))]
        at += 1
    return [Finding('%s given.' % counted(len(rest), 'option').capitalize())] if not rest else []
