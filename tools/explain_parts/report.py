"""A report: what is known of how a command ended, as text and as JSON."""
import json
import os
import re

from explain_parts import (ends, files, launch_file, launch_fits, names, page, races, ranges, signatures,
                           source as sources, syntax, vectors)
from explain_parts.command import wrong_words
from explain_parts.findings import Finding

PLACE = re.compile(r'^wgcc: (?P<name>.*):(?P<line>\d+):(?P<column>\d+): (?P<number>E\d+) (?P<text>.*)$')
LAUNCH = re.compile(r'^wgcc: (?P<number>L\d+) (?P<text>.*)$')
TURNS = re.compile(r'^wgcc: (?:launch (?P<launch>\d+): )?out of turns$')
HEADS = {5: 'Status 5', 6: 'Status 6', 7: 'Status 7'}
BY_NUMBER = {
    'E101': sources.no_token, 'E103': sources.malformed_number, 'E201': sources.directive, 'E301': syntax.findings,
    'E401': names.unknown_name, 'E402': names.declared_twice, 'E404': names.argument_count,
    'E408': signatures.type_outside, 'E409': signatures.misplaced_variable, 'E411': signatures.kernel_signature,
    'E501': vectors.misplaced, 'E502': vectors.no_component, 'E503': vectors.types_differ}


class Report:
    """How a command ended: its status, the line that it printed, and what is said of them."""

    def __init__(self, status, line, words, runner):
        self.status, self.line, self.words, self.runner = status, line, words, runner
        self.number = self.file = self.text = self.at_line = self.at_column = None
        self.findings, self.warnings, self.shown, self.help, self.hint = [], [], '', '', ''
        self.launch = launch_file.Launches(words.launch) if words.launch is not None else None
        given = self.launch.data.get('defines') if self.launch and self.launch.data is not None else None
        given = given if isinstance(given, dict) and all(isinstance(one, int) for one in given.values()) else {}
        self.source = sources.opened(words.source, given) if words.has_source else None
        self.look()

    def look(self):
        """Finds what is to be said."""
        if found := PLACE.match(self.line):
            self.refused_source(found)
        elif found := LAUNCH.match(self.line):
            self.refused_launch(found)
        elif found := ranges.ENDED.match(self.line):
            self.ended_at(found)
        elif 0 < self.status < 10:
            self.other_end()
        if self.status in (0, 5, 6, 7):
            self.warnings = files.lengths(self.words, self.launch)
            if self.source and self.words.command == 'run':
                self.warnings += ends.assigned_conditions(self.source)

    def look_for_races(self):
        """Warns of a race of launches that ran to their end."""
        if self.status == 0 and self.words.command == 'run' and self.words.source is not None:
            self.warnings += races.found(self.words, self.launch)

    def mark(self, line, column):
        """Keeps a place of the source, and shows its line."""
        self.file, self.at_line, self.at_column = self.words.source, line, column
        self.shown = self.source.shown(line, column) if self.source else ''
        if self.shown.strip() == '^':
            self.shown = ''

    def refused_source(self, found):
        """What is said of a refused source."""
        self.number, self.text = found['number'], found['text']
        line, column = int(found['line']), int(found['column'])
        self.mark(line, column)
        if self.number == 'E422' and self.source:
            self.findings, self.shown = names.no_such_kernel(self.source, self.launch), ''
        elif self.number in BY_NUMBER and self.source:
            self.findings = BY_NUMBER[self.number](self.source, line, column)
        self.help = page.section(self.number)
        port = os.path.join(page.ROOT, 'tools', 'port')
        if os.path.exists(port) and any('docs/PORTING.md' in one.text for one in self.findings):
            self.hint = '`%s %s` writes many forms of other sources as the subset has them.' % (port, self.words.source)

    def refused_launch(self, found):
        """What is said of a refused launch file."""
        self.number, self.text, self.file = found['number'], found['text'], self.words.launch
        launch = self.launch
        if self.number == 'L1':
            self.findings = launch_file.not_toml(launch) if launch else []
        elif launch and launch.data is not None and self.number in launch_file.BY_NUMBER:
            self.findings = launch_file.BY_NUMBER[self.number](launch, self.words)
        elif launch and launch.data is not None and self.number in launch_fits.BY_NUMBER:
            self.findings = launch_fits.findings(self.number, launch, self.source.unit if self.source else None)
        self.at_line = next((one.line for one in self.findings if one.file == launch.name), None) if launch else None
        self.help = page.section(self.number)

    def ended_at(self, found):
        """What is said of an access out of range and of a parted group."""
        self.mark(int(found['line']), int(found['column']))
        self.text = self.line[len('wgcc: '):]
        self.help = page.section(HEADS[self.status]) if self.status in HEADS else ''
        number = int(found['launch'] or 1) - 1
        if self.launch and self.launch.data is not None and self.source and number < len(self.launch.launches()):
            path, table = self.launch.launches()[number]
            fit = launch_fits.Fit(self.launch, number, path, table, self.source.unit)
            if self.status == 5:
                self.findings = ranges.findings(self.source, fit, found, self.runner)
            else:
                self.findings = [Finding(ranges.Item(found, fit).said())]

    def other_end(self):
        """What is said of statuses 1, 2, 7, 8 and 9."""
        self.text = self.line[len('wgcc: '):] if self.line.startswith('wgcc: ') else self.line
        self.help = page.section('Status %d' % self.status)
        found = TURNS.match(self.line)
        if self.status == 2:
            self.findings = wrong_words(self.words)
        elif self.status == 1:
            self.findings = files.not_read_or_written(self.words, self.launch)
        elif self.status == 9:
            self.findings = files.missing(self.words, self.launch)
        elif found:
            number = int(found['launch'] or 1) - 1
            self.findings = ends.out_of_turns(self.source, self.words, self.launch, number)

    def marked(self, finding):
        """A finding, and below it the line that it speaks of where that is to be shown."""
        source = self.source if self.source and finding.file == self.source.name else None
        shown = ''
        if finding.marked and finding.line is not None and source:
            shown = source.shown(finding.line, finding.column)
        elif finding.marked and finding.line is not None and self.launch and finding.file == self.launch.name:
            lines = self.launch.text.split('\n')
            if finding.line <= len(lines):
                line = lines[finding.line - 1].rstrip('\r')
                shown = '%s\n%s^' % (line, ''.join(c if c == '\t' else ' ' for c in line[:finding.column - 1]))
        return finding.spoken() + ('\n' + shown if shown else '')

    def as_text(self, is_long):
        """What is said behind the line, or nothing."""
        found = '\n'.join(self.marked(one) for one in self.findings if one.text)
        help_text = self.help if is_long else page.prose(self.help, self.status == 2)
        warnings = '\n'.join('warning: ' + self.marked(one) for one in self.warnings)
        return '\n\n'.join(part for part in (self.shown, found, warnings, help_text, self.hint) if part)

    def as_json(self, is_long):
        """The same as one JSON object on one line."""
        return json.dumps({
            'status': self.status, 'message': self.line, 'number': self.number, 'file': self.file,
            'line': self.at_line, 'column': self.at_column, 'text': self.text,
            'findings': [one.as_json() for one in self.findings if one.text],
            'warnings': [one.as_json() for one in self.warnings],
            'help': self.help if is_long else page.prose(self.help, self.status == 2)}, ensure_ascii=False)
