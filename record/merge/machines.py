"""The report for machines: JSON, and JUnit's XML, of which each difference is a case."""
import json
from xml.sax.saxutils import escape, quoteattr

from .outcome import is_own


def as_json(outcome, told, status):
    """`told` has the title and the lines of each call that differs."""
    differences = [dict(title=title, own_error=is_own(title), lines=[line.strip() for line in lines]) for title, lines in told]
    return json.dumps(dict(
        status=status, mpi=outcome.record.mpi, ranks=outcome.record.size, calls=outcome.calls, checked=outcome.checked,
        held_to_bounds=outcome.held, results=outcome.comparison.compared, differences=differences,
        waiting=outcome.waiting, ended_early=outcome.ended, ended_from_outside=outcome.is_outside, notes=outcome.notes, troubles=outcome.record.troubles, left_out=dict(outcome.left),
        accepted={title: outcome.left[title] for title in sorted(outcome.accepted_titles)}, calls_accepted=outcome.accepted, strict=outcome.asked.is_strict,
        least=outcome.asked.least, accept=list(outcome.asked.kinds), values_checked=outcome.asked.has_values, summary=outcome.summary()), indent=1) + '\n'


def case(name, kind='', message='', text=''):
    start = '  <testcase classname="record" name=%s' % quoteattr(name)
    if not kind: return start + '/>'
    return '%s><%s message=%s>%s</%s></testcase>' % (start, kind, quoteattr(message), escape(text), kind)


def as_junit(outcome, told, status):
    """A case for each difference, one for ranks that wait, one for each kind of calls that are left out, and one for the whole; notes are output."""
    cases = [case(title, 'failure', lines[0].strip() if lines else title, '\n'.join(lines)) for title, lines in told]
    if outcome.waiting: cases.append(case('the run was ended early' if outcome.ended else 'the run was ended from outside' if outcome.is_outside else 'ranks wait', 'failure', outcome.waiting[0], '\n'.join(outcome.waiting)))
    cases += [case('left out: ' + what, 'skipped', '%d calls%s' % (number, ', as accepted' * (what in outcome.accepted_titles)))
              for what, number in sorted(outcome.left.items())]
    if not outcome.asked.has_values: cases.append(case('values', 'skipped', 'values were not checked (--without-values)'))
    failures = sum('<failure' in line for line in cases)
    is_green = status == 0 or failures or outcome.record.troubles
    cases.append(case('how much was checked', *(() if is_green else ('failure', outcome.summary(), outcome.summary()))))
    cases += [case('the record is read', 'error', trouble, trouble) for trouble in outcome.record.troubles]
    notes = ''.join('note: %s\n' % escape(note) for note in outcome.notes)
    return '<?xml version="1.0" encoding="UTF-8"?>\n<testsuite name="record" tests="%d" failures="%d" skipped="%d"%s>\n%s\n%s</testsuite>\n' % (
        len(cases), sum('<failure' in line for line in cases), sum('<skipped' in line for line in cases), ' errors="%d"' % len(outcome.record.troubles) if outcome.record.troubles else '', '\n'.join(cases),
        '  <system-out>%s</system-out>\n' % notes if notes else '')


def unreadable_as_json(message, status): return json.dumps(dict(status=status, error=message)) + '\n'


def unreadable_as_junit(message, status):
    return ('<?xml version="1.0" encoding="UTF-8"?>\n<testsuite name="record" tests="1" errors="1">\n%s\n</testsuite>\n'
            % case('the record is read', 'error', message, 'status %d' % status))
