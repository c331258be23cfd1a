"""What came of the tests, for other programs."""
import json
from xml.sax.saxutils import quoteattr


def as_json(results):
    """A JSON text of the results."""
    return json.dumps([{'name': each.case, 'lanes': each.lanes, 'outcome': 'failed' if each.fault else 'passed',
                        'text': each.fault or each.said, 'seconds': round(each.seconds, 3)} for each in results],
                      indent=1) + '\n'


def clean(text):
    """A text without bytes that XML does not have."""
    return ''.join(c if c in '\t\n' or c >= ' ' else '?' for c in text)


def as_junit(results):
    """A JUnit document of the results."""
    failed = sum(1 for each in results if each.fault)
    lines = ['<?xml version="1.0" encoding="UTF-8"?>',
             '<testsuites tests="%d" failures="%d">' % (len(results), failed),
             '<testsuite name="test_kernels" tests="%d" failures="%d" errors="0" skipped="0" time="%.3f">' % (
                 len(results), failed, sum(each.seconds for each in results))]
    for each in results:
        head = '<testcase classname=%s name=%s time="%.3f"' % (
            quoteattr(each.case), quoteattr('lanes %s' % each.lanes), each.seconds)
        if each.fault:
            lines += [head + '>', '<failure message=%s/>' % quoteattr(clean(each.fault)), '</testcase>']
        else:
            lines.append(head + '/>')
    return '\n'.join(lines + ['</testsuite>', '</testsuites>']) + '\n'
