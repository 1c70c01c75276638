"""Changed tables, as tools/law tries them, and a fact that fails of each."""
from facts import Fact
from rows import ROWS
from trial import WRONG, changed

# changes that are told by these words of the fact that fails, on lines of two nodes
TOLD = (
    ('drop home_write', Fact.MEETS, 'asks for HomeWrite, which misses'),
    ('home_write: memory becomes FRESH+(me)', Fact.MEETS, 'asks for ReturnHomeDirty, which misses'),
    ('home_write: memory becomes FRESH+(me)', Fact.NO_CIRCLE, 'node 0 waits for node 1 waits for node 0'),
    ('clear: step becomes Queueing None', Fact.PAID, "node 1's Clear leads from"),
    ('drop roll', Fact.MEETS, 'asks for Roll, which misses'),
    ('drop tell_predecessor', Fact.GOES_ON, 'nobody does'),
    ('', None, ''),
)


def make(text):
    """Changes the table."""
    rows = changed(text)
    ROWS.clear()
    ROWS.update(rows)


def broken_by(search, text):
    """The facts that fail of a changed table, on lines of two nodes, with all that is said of where. The table is then as before."""
    rows = dict(ROWS)
    try:
        make(text)
        return {fact: ' / '.join(states.values()) for fact, states in search(2)[1].items()}
    finally:
        ROWS.clear()
        ROWS.update(rows)


def wanted():
    """The changes; of those of tools/law that stop a line of two nodes, that nobody goes on."""
    yield from TOLD
    for file in sorted(WRONG.glob('*.txt')):
        text = file.read_text(encoding='utf-8')
        yield text, Fact.GOES_ON if text.startswith('# 2 nodes') and 'nobody goes on' in text.splitlines()[0] else None, ''


def all_break(search):
    """Whether each change breaks the fact that it should, and none stops this program; prints which don't."""
    count = wrong = 0
    for text, fact, words in wanted():
        broken, count = broken_by(search, text), count + 1
        if fact and words not in broken.get(fact, '') or fact and fact not in broken or not text and broken:
            wrong += 1
            print(f'progress: {text.strip()!r} breaks {[it.name for it in broken]}, and not {fact and fact.name} by {words!r}')
    print(f'progress: {count - wrong} of {count} changed tables break what they should')
    return not wrong
