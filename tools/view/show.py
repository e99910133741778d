"""The view: the records of a plan and the events in rows, with the program's lines and both in words."""
import re
import textwrap
from itertools import zip_longest

from view.ages import Ages
from view.records import EVENTS, RECORDS, Plan, digits_of, records
from view.refused import cause
from view.words import NO_LINE, answer_words, bad_event, clean, count, count_timeouts, event_words, reason, record_words

# The widths of the columns: each row makes 120 with the gaps. That of the record numbers grows with them.
PLAN = (3, 42, 71)
SHORT_ANSWER = (30, 27, 13, 44)
LONG_ANSWER = (30, 27, 59)
BAD = 'input bad'
MOST_INPUT = 65536
CUT = 119  # of a record that takes the rest, the digits of 40 bytes are shown


def row(widths, *cells):
    """Prints a row, its cells wrapped to the widths; an ID stays with the word before it."""
    columns = [[part.replace('\xa0', ' ') for line in cell.split('\n')
                for part in textwrap.wrap(re.sub(r'\bID (?=\S)', 'ID\xa0', line), width, subsequent_indent='    ') or ['']]
               for cell, width in zip(cells, widths)]
    for line in zip_longest(*columns, fillvalue=''):
        print('  '.join(f'{part:{width}}' for part, width in zip(line, widths)).rstrip())


def heading(widths, *cells):
    row(widths, *cells)
    row(widths, *('-' * width for width in widths))


def notes(part, place, gap=''):
    if place in part.notes:
        print(gap, end='')
    for note in part.notes.get(place, ()):
        print('\n'.join(textwrap.wrap(f'# {note}', 120, subsequent_indent='# ')))


def show(plan, events, answer, lines):
    """Shows the plan with its answer, and the events with theirs if it is good."""
    said = show_plan(plan, events, answer)
    if answer.startswith('plan ok'):
        print()
        show_events(events, said, lines)


def show_plan(part, events, answer):
    """Shows the records, the mark of a refusal and the answer, and gives back what the records say."""
    plan = Plan()
    every = list(records(part.data, RECORDS))
    good = re.fullmatch(r'plan ok (\d+) (\d+) (\d+)', answer)
    whole = whole_plan(every) if good else None
    number_width = max(PLAN[0], len(str(len(every))))
    widths = (number_width, PLAN[1], sum(PLAN[:1] + PLAN[2:]) - number_width)
    refusal = re.fullmatch(r'plan refused ([1-9]|10) (\d{1,5})', answer)
    notes(part, 0)
    heading(widths, f'{"no":>{number_width}}', 'record', 'in words')
    for number, record in enumerate(every):
        if record.place:
            notes(part, record.place)
        if record.fields is not None:
            plan.add(number, record)
        digits = clean(digits_of(record), CUT)
        row(widths, f'{number:{number_width}}', digits, record_words(plan, record, whole))
        if refusal and refusal[2] == str(number):
            row(widths, '', '^' * min(len(digits), widths[1]), 'refused here')
    if part.data:
        notes(part, len(part.data))
    if refusal:
        words = refusal_words(part, every, int(refusal[1]), int(refusal[2]))
    elif good:
        words = 'good: ' + ', '.join(map(count, good.groups(), ('node', 'Tx frame', 'Rx frame')))
    else:
        words = bad_input(part, events) if answer == BAD else NO_LINE
    row(widths, f'{"=>":>{number_width}}', clean(answer, widths[1] - 3), words)
    left = len(list(records(events.data, EVENTS)))
    if left and not good:
        row(widths, '', f'{count(left, "event")} not run')
    return plan


def whole_plan(every):
    """What all whole records say."""
    plan = Plan()
    for number, record in enumerate(every):
        if record.fields is not None:
            plan.add(number, record)
    return plan


def bad_input(plan, events):
    """Why the whole input is bad: for its length."""
    lines = [0, 0, *plan.lines, *events.lines]  # the plan length is not typed
    if len(lines) > MOST_INPUT:
        return f'the input passes {MOST_INPUT:,} bytes' + f' in line {lines[MOST_INPUT]}' * bool(lines[MOST_INPUT])
    return 'the input is too short for the plan length or its stated plan'


def refusal_words(part, every, number, at):
    line = part.line(every[at].place) if at < len(every) else ''
    return f'refused {number} at record {at}{line}: {reason(number)}\n{cause(part.data, number, at)}'.rstrip()


def show_events(part, plan, lines):
    """Shows the events beside their answers, and ticks in a row that report nothing as one."""
    rows = []
    for event, line in zip(records(part.data, EVENTS), lines):
        quiet = event.kind == 17 and re.fullmatch('tick( 0)*', line)
        if quiet and rows and rows[-1][0].kind == 17 and rows[-1][1] == line and event.place not in part.notes:
            rows[-1][2] += 1
        else:
            rows.append([event, line, 1])
    heading(SHORT_ANSWER, 'event', 'in words', 'answer', 'in words')
    tick, in_a_row, ages = 0, {}, Ages(plan)
    for event, line, times in rows:
        notes(part, event.place, '\n' if event.place else '')
        digits = clean(digits_of(event), CUT) + f' ({times} times)' * (times > 1)
        words = event_words(event, tick, times)
        tick += times if event.kind == 17 else 0
        if line == BAD and event.fields is None:
            meaning = [f'the run ends here{part.line(event.place)}: {bad_event(event)}']
        else:
            count_timeouts(plan, event, line, in_a_row)
            ages.add(event, line, times)
            meaning = answer_words(plan, event, line, in_a_row, ages)
        if len(line) <= SHORT_ANSWER[2]:
            row(SHORT_ANSWER, digits, words, clean(line), '\n'.join(meaning))
        else:
            row(LONG_ANSWER, digits, words, '\n  '.join([clean(line, 1000), *meaning]))
    notes(part, len(part.data), '\n')
