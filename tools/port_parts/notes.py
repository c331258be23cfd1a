"""What is said on standard error: what was changed, and what cannot be."""


class Refused(Exception):
    """A form that is not rewritten: where it stands, why, and the row of docs/PORTING.md that tells what to do."""

    def __init__(self, place, text, row=None):
        super().__init__(text)
        self.place, self.text, self.row = place, text, row


class Notes:
    """What was changed, each kind with the lines at which it was."""

    def __init__(self, name):
        self.name, self.kinds = name, {}

    def add(self, text, place):
        """Notes a change at a token."""
        lines = self.kinds.setdefault(text, [])
        if place is not None and (not lines or lines[-1] != place.where()):
            lines.append(place.where())

    def lines(self):
        """A line for each kind of change."""
        for text, places in self.kinds.items():
            shown = ', '.join(str(place) for place in places[:8])
            more = ' and %d more' % (len(places) - 8) if len(places) > 8 else ''
            yield 'port: %s%s' % (text, ': line %s%s' % (shown, more) if places else '')


def refusal_line(name, refused):
    """The line that a refusal is told in."""
    where = '%s:%s' % (name, refused.place.where()) if refused.place is not None else name
    row = ' (docs/PORTING.md, case %s)' % refused.row if refused.row else ''
    return 'port: %s: %s%s' % (where, refused.text, row)
