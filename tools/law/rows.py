"""The table of rows: every kind of exchange and Look once, with what it needs and what it changes."""
import re
from dataclasses import dataclass, field

NODE, LINK, LINE, FLAG, TAG = 'ℕ', 'Option ℕ', 'Line', 'Bool', 'Tag'


@dataclass
class Word:
    """A tag word: its text, and the texts of its fields, where `s.kind x` is the kind of the word of x before."""
    text: str
    kind: str
    held: str
    forw: str
    back: str


def word(kind, forw, back='None'):
    """A word that is not held."""
    return Word(f'word {kind} {forw} {back}', kind, 'false', forw, back)


def lock(node):
    """The word of a node, held."""
    return Word(f'held_word (s.tags {node})', f'(s.kind {node})', 'true', f'(s.forw {node})', f'(s.back {node})')


def of(name, held=None):
    """A kept word by its name, with the held bit as it is, set or cleared."""
    text = {None: name, 'true': f'held_word {name}', 'false': f'unheld_word {name}'}[held]
    return Word(text, f'{name}.kind', held or f'{name}.held', f'{name}.forw', f'{name}.back')


INVALID = Word('invalid', 'Kind.Invalid', 'false', 'None', 'None')


@dataclass
class Memory:
    """A memory word: its text and its fields."""
    text: str
    state: str
    lent: str
    forw: str


def memory(state, forw):
    """A memory word that is not lent."""
    return Memory(f'memory_word {state} {forw}', state, 'false', forw)


def lent(state, forw):
    """A memory word that is lent."""
    return Memory(f'lent_word (memory_word {state} {forw})', state, 'true', forw)


UNLENT = Memory('unlent_word s.memory', 's.state', 'false', 's.head')


@dataclass
class Row:
    """One row: the state before (`step`, `own`, `memory`, `needs`), what changes, the new witness, and helping facts."""
    name: str
    event: str
    says: str
    args: list
    step: tuple
    after: tuple
    before: dict = field(default_factory=dict)      # node -> Word that it has before
    memory_before: Memory = None
    needs: list = field(default_factory=list)       # further premises: (name, text)
    words: dict = field(default_factory=dict)       # node -> Word after
    memory: Memory = None
    slots: dict = field(default_factory=dict)       # node, or 'memory' -> slot after
    witness: dict = field(default_factory=dict)     # field -> its text after
    facts: list = field(default_factory=list)       # helping facts: (name, text, proof)
    special: dict = field(default_factory=dict)     # group -> proof
    bounds: list = field(default_factory=list)      # premises of the lemma on links


ROWS = {}


def row(*args, **more):
    """Adds a row to the table."""
    each = Row(*args, **more)
    ROWS[each.name] = each


def paren(text):
    """The text as an argument."""
    return text if re.fullmatch(r'[\w.]+|\([^()]*\)', text) else f'({text})'


def step_text(step):
    """A pending step as antt text."""
    parts = [paren(each.text) if isinstance(each, Word) else each for each in step[1:]]
    return ' '.join([f'Pending.{step[0]}'] + parts)


def inside(text):
    """x of `(Some x)`, or None."""
    return text[6:-1] if text.startswith('(Some ') else None


def projections(step):
    """What Shape reads of a pending step, field by field; `seen` fields are left out where the step's are unknown."""
    phase, *parts = step
    got = dict(phase=phase, kept='None', flag='false', seen='false', seen_forw='None', seen_back='None', copy='false',
               line='blank', word_kind='Kind.Invalid', word_held='false', word_forw='None', word_back='None')
    names = STEP_FIELDS[phase]
    for name, part in zip(names, parts):
        if name == 'node':
            got['kept'] = f'(Some {part})'
        elif name == 'word':
            w = part if isinstance(part, Word) else of(part)
            got.update(word_kind=w.kind, word_held=w.held, word_forw=w.forw, word_back=w.back)
        elif name == 'copy':
            if inside(part):
                got.update(copy='true', line=inside(part))
        elif name == 'sight':
            sight(got, part, phase)
        elif name == 'back_kept':
            got['seen_back'] = f'(Some {part})'
        else:
            got[name] = part
    return got


def sight(got, part, phase):
    """Fills in what a step has seen."""
    if part == 'seen':
        for name in ('seen', 'seen_forw', 'seen_back'):
            del got[name]
    elif part != 'None' and phase == 'Rolling':
        forw, back = inside(part)[1:-1].split(', ')
        got.update(seen='true', seen_forw=forw, seen_back=f'(Some {back})')
    elif part != 'None':
        got.update(seen='true', seen_forw=inside(part))


STEP_FIELDS = dict(
    Idle=[], Holding=['word', 'line'], Queueing=['kept'], Fetching=['kept', 'flag', 'line'],
    InQueue=['kept', 'flag', 'copy'], Copying=['node', 'word', 'line'], Ready=['kept', 'flag', 'line'],
    Converting=['kept', 'flag'], Purging=['line', 'sight'], Advancing=['line', 'node', 'word'],
    Clearing=['line', 'node', 'word'], Leaving=['flag', 'line', 'sight'], Promoted=['flag', 'line', 'node'],
    WritingBack=['line'], Parted=['kept'], Rolling=['flag', 'sight'], Unlinked=['kept', 'back_kept'])

# helping facts, by grind from the law `o`
INSIDE = ('me_in', '0 < g.rank me', 'grind (arith, o.outside.may_be me)')
OUTSIDE = ('me_out', 'g.rank me ≡ 0', 'grind (arith, o.outside.outside me)')
TARGET_IN = ('target_in', '0 < g.rank target', 'grind (arith, o.outside.may_be target, o.own.suited target)')
TARGET_BEHIND = ('target_behind', 'g.rank target < g.rank me', 'grind (arith, o.backs.ahead target me)')
TARGET_NEXT = ('target_next', 's.forw me ≡ Some target', 'grind (arith, o.sees.forw_seen me target)')
LAST_ENTRY = ('me_forw', 's.forw me ≡ None', 'grind (arith, o.sees.none_seen me)')
VICTIM = ('victim_kind', 's.kind target ≡ Kind.Purged', 'grind (arith, o.words.victim me target)')


def kind(name):
    """The own word's kind, from the pending step."""
    return ('me_kind', f's.kind me ≡ Kind.{name}', 'grind (arith, o.own.suited me)')


def link(forw):
    """The own word's forward link, from the pending step."""
    return ('me_forw', f's.forw me ≡ {forw}', 'grind (arith, o.own.as_kept me)')


UNHELD = ('me_unheld', 's.held me ≡ false')
TARGET_UNHELD = ('target_unheld', 's.held target ≡ false')
OWN_SLOT = ('me_slot', 's.slot me ≡ Some line')
MEMORY_SLOT = ('memory_has', 's.memory_slot ≡ Some line')
SETTLED = '(cond dirty Kind.Dirty Kind.Fresh)'
LISTED = '(cond dirty MemState.Gone MemState.Fresh)'
FORW_BELOW = ('forw_below', '(j : ℕ) → forw ≡ Some j → j < n')
COPIED = Word('record { kind = Kind.Valid; held = true; forw = (s.tags target).forw; back = Some me }', 'Kind.Valid',
              'true', '(s.forw target)', '(Some me)')


def own(kind_text, forw):
    """The own word after, not held, with no back link."""
    return {'me': word(kind_text, forw)}


def enter_rows():
    """From the first look at memory to the entry in the list."""
    row('queue', 'Queue', 'The node, which is Invalid, is about to prepend itself before the head that it found.',
        [('forw', LINK)], ('Idle',), ('Queueing', 'forw'),
        before={'me': INVALID}, words=own('Kind.Queued', 'forw'), slots={'me': 'None'}, bounds=[FORW_BELOW],
        facts=[('me_out', 'g.rank me ≡ 0', 'grind (arith, o.outside.kinds me)')])
    row('requeue', 'Requeue', 'The node found another head, and is about to prepend itself before that.',
        [('forw', LINK), ('old', LINK)],
        ('Queueing', 'old'), ('Queueing', 'forw'), before=own('Kind.Queued', 'old'), words=own('Kind.Queued', 'forw'),
        bounds=[FORW_BELOW], facts=[OUTSIDE])
    # a reader and a writer that find no list
    for name, event, entry, dirty, state in (('prepend_valid_home', 'PrependValid', 'the only entry', 'false', 'Fresh'),
                                             ('home_write', 'HomeWrite', 'the only entry, dirty', 'true', 'Gone')):
        row(name, event, f'The home is HOME: the node is {entry}, with memory\'s slot in hand.',
            [('line', LINE)],
            ('Queueing', 'None'), ('Fetching', 'None', dirty, 'line'), memory_before=memory('MemState.Home', 'None'),
            needs=[MEMORY_SLOT], memory=lent(f'MemState.{state}', '(Some me)'), slots={'memory': 'None'},
            witness={'rank': 'update g.rank me 1', 'last_front': 'me', 'borrower': 'me'}, facts=[link('None'), OUTSIDE],
            special={'order': 'push_first me me_forw (rw memory_forw at o.order)'})
    row('prepend_valid_listed', 'PrependValid',
        'The home is FRESH: the node is the head before the old one, with memory\'s slot in hand.',
        [('target', NODE), ('line', LINE)], ('Queueing', '(Some target)'), ('Fetching', '(Some target)', 'false', 'line'),
        memory_before=memory('MemState.Fresh', '(Some target)'), needs=[MEMORY_SLOT],
        memory=lent('MemState.Fresh', '(Some me)'), slots={'memory': 'None'},
        witness={'rank': 'update g.rank me (g.rank target + 1)', 'borrower': 'me'}, facts=[link('Some target'), OUTSIDE],
        special={'order': 'push_next me target me_forw me_out (rw memory_forw at o.order)'})
    row('return_memory_fetching', 'ReturnMemory', 'The node has copied memory\'s line, and gives memory\'s slot back.',
        [('forw', LINK), ('dirty', FLAG), ('line', LINE)], ('Fetching', 'forw', 'dirty', 'line'),
        ('InQueue', 'forw', 'dirty', '(Some line)'), memory=UNLENT, slots={'memory': '(Some line)'}, facts=[kind('Queued')])
    row('return_memory_writing_back', 'ReturnMemory',
        'The node has written its line back, gives memory\'s slot back, and is to leave.',
        [('line', LINE)], ('WritingBack', 'line'), ('Parted', 'None'), memory=UNLENT, slots={'memory': '(Some line)'},
        facts=[kind('Leaving'), OUTSIDE])
    row('prepend_gone', 'PrependGone',
        'The home is GONE: the node is the head before the old one, and is to copy that one\'s line.',
        [('target', NODE)],
        ('Queueing', '(Some target)'), ('InQueue', '(Some target)', 'true', 'None'),
        memory_before=memory('MemState.Gone', '(Some target)'), memory=memory('MemState.Gone', '(Some me)'),
        witness={'rank': 'update g.rank me (g.rank target + 1)'}, facts=[link('Some target'), OUTSIDE],
        special={'order': 'push_next me target me_forw me_out (rw memory_forw at o.order)'})


def attach_rows():
    """From the entry in the list to the valid front."""
    row('attach_fresh', 'AttachFresh', 'The old fresh head becomes the first body entry, behind the node.',
        [('target', NODE), ('line', LINE)],
        ('InQueue', '(Some target)', 'false', '(Some line)'), ('Ready', '(Some target)', 'false', 'line'),
        needs=[('target_fresh', 's.kind target ≡ Kind.Fresh'), TARGET_UNHELD],
        words={'target': word('Kind.Valid', '(s.forw target)', '(Some me)')}, witness={'last_front': 'me'},
        facts=[INSIDE, kind('Queued'), link('Some target')])
    row('settle_ready', 'Settle', 'The node has a line, and is a valid front.',
        [('forw', LINK), ('dirty', FLAG), ('line', LINE)],
        ('Ready', 'forw', 'dirty', 'line'), ('Idle',), before=own('Kind.Queued', 'forw'), words=own(SETTLED, 'forw'),
        slots={'me': '(Some line)'}, facts=[INSIDE])
    row('settle_in_queue', 'Settle', 'The node is the last entry, has memory\'s line, and is a valid front.',
        [('dirty', FLAG), ('line', LINE)],
        ('InQueue', 'None', 'dirty', '(Some line)'), ('Idle',), before=own('Kind.Queued', 'None'),
        words=own(SETTLED, 'None'), slots={'me': '(Some line)'}, facts=[INSIDE])
    row('attach_dirty', 'AttachDirty',
        'The old dirty head becomes the first body entry, held, with its slot in the node\'s hand.',
        [('target', NODE), ('line', LINE)], ('InQueue', '(Some target)', 'true', 'None'),
        ('Copying', 'target', COPIED, 'line'), needs=[('target_dirty', 's.kind target ≡ Kind.Dirty'), TARGET_UNHELD,
        ('target_slot', 's.slot target ≡ Some line')], words={'target': COPIED}, slots={'target': 'None'},
        witness={'last_front': 'me', 'copier': 'update g.copier target me'},
        facts=[INSIDE, kind('Queued'), link('Some target')])
    row('return_copy', 'ReturnCopy', 'The node has copied the old head\'s line, and gives its slot back.',
        [('target', NODE), ('line', LINE), ('kept', TAG)], ('Copying', 'target', 'kept', 'line'),
        ('Ready', '(Some target)', 'true', 'line'), before={'target': of('kept')}, words={'target': of('kept', 'false')},
        slots={'target': '(Some line)'},
        facts=[INSIDE, kind('Queued'), link('Some target'),
               ('copied_kind', 's.kind target ≡ Kind.Valid', 'grind (arith, o.words.copied me target)'),
               ('copied_held', 's.held target ≡ true', 'grind (arith, o.slots.copied_held me target)')])


def valid_rows():
    """What a valid entry begins: a read, a conversion, a write."""
    row('hold', 'Hold', 'The node takes its own line behind the held bit, to read it.', [('line', LINE)], ('Idle',),
        ('Holding', Word('s.tags me', '(s.kind me)', '(s.held me)', '(s.forw me)', '(s.back me)'), 'line'),
        needs=[('me_valid', 'can_be_held (s.kind me) ≡ true'), UNHELD, OWN_SLOT], words={'me': lock('me')},
        slots={'me': 'None'})
    row('unhold', 'Unhold', 'The node has read its line, gives its slot back, and is not held.',
        [('line', LINE), ('kept', TAG)],
        ('Holding', 'kept', 'line'), ('Idle',), before={'me': of('kept', 'true')}, words={'me': of('kept', 'false')},
        slots={'me': '(Some line)'})
    row('convert', 'Convert', 'The node, a fresh front, is on its way to write.',
        [], ('Idle',), ('Converting', '(s.forw me)', 'false'),
        needs=[('me_fresh', 's.kind me ≡ Kind.Fresh'), UNHELD], words=own('Kind.Convert', '(s.forw me)'), facts=[INSIDE])
    row('fresh_to_gone', 'FreshToGone', 'The home becomes GONE for its head, the node, which is to write.',
        [('forw', LINK)],
        ('Converting', 'forw', 'false'), ('Converting', 'forw', 'true'),
        memory_before=memory('MemState.Fresh', '(Some me)'), memory=memory('MemState.Gone', '(Some me)'),
        facts=[INSIDE, kind('Convert')])
    row('converted', 'Converted', 'The node, whose home is GONE, begins to purge, with its slot in hand.',
        [('forw', LINK), ('line', LINE)],
        ('Converting', 'forw', 'true'), ('Purging', 'line', 'None'), before=own('Kind.Convert', 'forw'), needs=[OWN_SLOT],
        words=own('Kind.Purging', 'forw'), slots={'me': 'None'}, facts=[INSIDE])
    row('unconverted', 'Unconverted', 'The node, which is not the head any more, is fresh as before.', [('forw', LINK)],
        ('Converting', 'forw', 'false'), ('Idle',), before=own('Kind.Convert', 'forw'), words=own('Kind.Fresh', 'forw'),
        facts=[INSIDE])
    row('begin_purge', 'BeginPurge', 'The node, a dirty front, begins to purge, with its slot in hand.',
        [('line', LINE)], ('Idle',),
        ('Purging', 'line', 'None'), needs=[('me_dirty', 's.kind me ≡ Kind.Dirty'), UNHELD, OWN_SLOT],
        words=own('Kind.Purging', '(s.forw me)'), slots={'me': 'None'}, facts=[INSIDE])


def purge_rows():
    """A writer purges the entries behind it, one by one."""
    for name, says, args, given, value in (
            ('written', 'The node has no entry behind it, and gives its slot back with another line: the value changes.',
             [('line', LINE), ('new', LINE)], 'new', {'value': 'new'}),
            ('unwritten', 'The node has no entry behind it, and gives its slot back as it was.', [('line', LINE)], 'line',
             {})):
        row(name, 'Written', says, args, ('Purging', 'line', '(Some None)'), ('Idle',),
            before=own('Kind.Purging', 'None'), words=own('Kind.Dirty', 'None'), slots={'me': f'(Some {given})'},
            witness=value, facts=[INSIDE])
    purged = word('Kind.Purged', '(s.forw target)', '(s.back target)')
    row('purge_one', 'PurgeOne', 'The node purges the valid entry behind it.', [('target', NODE), ('line', LINE)],
        ('Purging', 'line', '(Some (Some target))'), ('Advancing', 'line', 'target', purged),
        needs=[('target_valid', 's.kind target ≡ Kind.Valid'), TARGET_UNHELD], words={'target': purged},
        facts=[INSIDE, kind('Purging')])
    row('advance', 'Advance', 'The node takes the forward link of the entry that it purged, which is outside then.',
        [('target', NODE), ('line', LINE), ('kept', TAG)], ('Advancing', 'line', 'target', 'kept'),
        ('Clearing', 'line', 'target', 'kept'), before=own('Kind.Purging', '(Some target)'),
        words=own('Kind.Purging', 'kept.forw'),
        witness={'rank': 'update g.rank target 0', 'clearer': 'update g.clearer target me'},
        facts=[INSIDE,
               ('target_forw', 'kept.forw ≡ s.forw target', 'grind (arith, o.words.victim_forw me target)'),
               ('target_in', '0 < g.rank target', 'o.order.next_in me target me_in me_word.forw'), VICTIM])
    row('clear', 'Clear', 'The entry that the node purged becomes Invalid.',
        [('target', NODE), ('line', LINE), ('kept', TAG)],
        ('Clearing', 'line', 'target', 'kept'), ('Purging', 'line', 'None'),
        before={'target': word('Kind.Purged', 'kept.forw', 'kept.back')}, words={'target': INVALID},
        facts=[INSIDE, kind('Purging'), VICTIM])
    row('adopt', 'Adopt', 'The entry behind the node is on its way out, and learns that the node is in front of it.',
        [('target', NODE), ('line', LINE)], ('Purging', 'line', '(Some (Some target))'),
        ('Purging', 'line', '(Some (Some target))'),
        needs=[('target_rolls', 's.kind target ≡ Kind.Roll'), ('target_back', 's.back target ≢ Some me'), TARGET_UNHELD],
        words={'target': word('Kind.Roll', '(s.forw target)', '(Some me)')}, facts=[INSIDE, kind('Purging')])


def roll_rows():
    """A body entry goes out."""
    row('roll', 'Roll', 'The node, a valid body entry, is on its way out.', [], ('Idle',), ('Rolling', 'false', 'None'),
        needs=[('me_valid', 's.kind me ≡ Kind.Valid'), UNHELD],
        words={'me': word('Kind.Roll', '(s.forw me)', '(s.back me)')}, facts=[INSIDE])
    row('tell_successor', 'TellSuccessor', 'The node\'s successor learns of the node\'s predecessor.',
        [('target', NODE), ('back', NODE)],
        ('Rolling', 'false', '(Some (Some target, back))'), ('Rolling', 'true', '(Some (Some target, back))'),
        needs=[('target_valid', 's.kind target ≡ Kind.Valid'), ('target_back', 's.back target ≡ Some me'), TARGET_UNHELD],
        words={'target': word('Kind.Valid', '(s.forw target)', '(Some back)')},
        facts=[INSIDE, kind('Roll'), TARGET_IN, TARGET_BEHIND, TARGET_NEXT])
    row('tell_predecessor', 'TellPredecessor',
        'The node\'s predecessor learns of the node\'s successor, and the node is outside then.',
        [('target', NODE), ('forw', LINK), ('told', FLAG)], ('Rolling', 'told', '(Some (forw, target))'),
        ('Unlinked', 'forw', 'target'),
        needs=[('in_turn', '(told ≡ true) ⊎ (forw ≡ None)'), ('target_forw', 's.forw target ≡ Some me'),
               ('not_purged', 's.kind target ≢ Kind.Purged'), ('not_queued', 's.kind target ≢ Kind.Queued'),
               ('not_invalid', 's.kind target ≢ Kind.Invalid'), ('not_convert', 's.kind target ≢ Kind.Convert'),
               TARGET_UNHELD],
        words={'target': word('(s.kind target)', 'forw', '(s.back target)')}, witness={'rank': 'update g.rank me 0'},
        facts=[('me_forw', 'forw ≡ s.forw me', 'grind (arith, o.sees.told_forw me, o.sees.none_seen me)'), INSIDE,
               ('target_in', '0 < g.rank target',
                'grind (arith, o.outside.may_be target, o.own.suited target, o.sees.back_parting me target)'),
               ('target_ahead', 'g.rank me < g.rank target', 'o.order.next_below target me target_in target_forw'),
               kind('Roll')])
    row('rolled', 'Rolled', 'The node, a body entry that has left, becomes Invalid.',
        [('forw', LINK), ('back', NODE)], ('Unlinked', 'forw', 'back'), ('Idle',),
        before={'me': word('Kind.Roll', 'forw', '(Some back)')}, words={'me': INVALID}, facts=[OUTSIDE])


def leave_rows():
    """A head goes out."""
    row('leave', 'Leave', 'The node, a valid front, is on its way out, with its slot in hand.',
        [('line', LINE), ('dirty', FLAG)], ('Idle',),
        ('Leaving', 'dirty', 'line', 'None'),
        needs=[('me_settled', 's.kind me ≡ cond dirty Kind.Dirty Kind.Fresh'), UNHELD, OWN_SLOT],
        words=own('Kind.Leaving', '(s.forw me)'), slots={'me': 'None'}, facts=[INSIDE])
    row('promote', 'Promote', 'The node\'s successor becomes a front too, as fresh or dirty as the node was.',
        [('target', NODE), ('dirty', FLAG), ('line', LINE)],
        ('Leaving', 'dirty', 'line', '(Some (Some target))'), ('Promoted', 'dirty', 'line', 'target'),
        needs=[('target_valid', 's.kind target ≡ Kind.Valid'), ('target_back', 's.back target ≡ Some me'), TARGET_UNHELD],
        words={'target': word(SETTLED, '(s.forw target)')}, witness={'last_front': 'target'},
        facts=[INSIDE, kind('Leaving'), TARGET_IN, TARGET_BEHIND, TARGET_NEXT])
    row('pass_on', 'PassOn', 'The node\'s successor becomes the head, and the node is outside then.',
        [('target', NODE), ('dirty', FLAG), ('line', LINE)], ('Promoted', 'dirty', 'line', 'target'),
        ('Parted', '(Some target)'), memory_before=memory(LISTED, '(Some me)'), memory=memory(LISTED, '(Some target)'),
        witness={'rank': 'update g.rank me 0'}, facts=[INSIDE, kind('Leaving'), link('Some target')],
        special={'order': 'pop me (Some target) me_forw (rw memory_forw at o.order)'})
    row('stay', 'Stay', 'The node, which is not the head any more, stays as the front that it was.',
        [('forw', LINK), ('dirty', FLAG), ('line', LINE)], ('Leaving', 'dirty', 'line', '(Some forw)'), ('Idle',),
        before=own('Kind.Leaving', 'forw'), words=own(SETTLED, 'forw'), slots={'me': '(Some line)'}, facts=[INSIDE])
    row('re_enter_fresh', 'ReEnter',
        'The node, which is not the head any more, queues with its line before the successor that it promoted.',
        [('target', NODE), ('line', LINE)], ('Promoted', 'false', 'line', 'target'),
        ('InQueue', '(Some target)', 'false', '(Some line)'), before=own('Kind.Leaving', '(Some target)'),
        words=own('Kind.Queued', '(Some target)'), facts=[INSIDE])
    row('re_enter_dirty', 'ReEnter',
        'The node, which is not the head any more, queues before the dirty successor that it promoted, and is to copy anew.',
        [('target', NODE), ('line', LINE)], ('Promoted', 'true', 'line', 'target'),
        ('InQueue', '(Some target)', 'true', 'None'), before=own('Kind.Leaving', '(Some target)'),
        words=own('Kind.Queued', '(Some target)'), facts=[INSIDE])
    row('left', 'Left', 'The node, a front that has left, becomes Invalid, and gives its slot back.',
        [('forw', LINK), ('line', LINE)], ('Parted', 'forw'), ('Idle',),
        before=own('Kind.Leaving', 'forw'), words={'me': INVALID}, slots={'me': '(Some line)'}, facts=[OUTSIDE])


def home_rows():
    """The only entry goes out."""
    row('return_home_fresh', 'ReturnHomeFresh',
        'The node was the only entry, and is outside then: the home becomes HOME.',
        [('line', LINE)],
        ('Leaving', 'false', 'line', '(Some None)'), ('Parted', 'None'),
        memory_before=memory('MemState.Fresh', '(Some me)'), memory=memory('MemState.Home', 'None'),
        witness={'rank': 'update g.rank me 0'}, facts=[INSIDE, kind('Leaving'), LAST_ENTRY],
        special={'order': 'pop me None me_forw (rw memory_forw at o.order)'})
    row('return_home_dirty', 'ReturnHomeDirty',
        'The node was the only entry, dirty, and is outside then: it takes memory\'s slot, to write its line back.',
        [('line', LINE)],
        ('Leaving', 'true', 'line', '(Some None)'), ('WritingBack', 'line'),
        memory_before=memory('MemState.Gone', '(Some me)'), memory=lent('MemState.Home', 'None'), slots={'memory': 'None'},
        witness={'rank': 'update g.rank me 0', 'borrower': 'me'}, facts=[INSIDE, kind('Leaving'), LAST_ENTRY],
        special={'order': 'pop me None me_forw (rw memory_forw at o.order)'})


def look_rows():
    """Look: what the own word says is in mind."""
    row('look_purging', 'Look', 'The node notes its forward link while it purges.',
        [('line', LINE), ('seen', 'Option (Option ℕ)')],
        ('Purging', 'line', 'seen'), ('Purging', 'line', '(Some (s.forw me))'))
    row('look_leaving', 'Look', 'The node notes its forward link on its way out.',
        [('dirty', FLAG), ('line', LINE), ('seen', 'Option (Option ℕ)')],
        ('Leaving', 'dirty', 'line', 'seen'), ('Leaving', 'dirty', 'line', '(Some (s.forw me))'))
    row('look_rolling', 'Look', 'The node, a body entry on its way out, notes its forward and its back link.',
        [('told', FLAG), ('back', NODE), ('seen', 'Option (Option ℕ × ℕ)')], ('Rolling', 'told', 'seen'),
        ('Rolling', 'told', '(Some (s.forw me, back))'), needs=[('me_back', 's.back me ≡ Some back')],
        bounds=[('me_back', 's.back me ≡ Some back')])


enter_rows()
attach_rows()
valid_rows()
purge_rows()
roll_rows()
leave_rows()
home_rows()
look_rows()
EVENTS = ('Queue Requeue PrependValid ReturnMemory AttachFresh Settle Hold Unhold Convert FreshToGone Converted Unconverted '
          'BeginPurge Written PrependGone AttachDirty ReturnCopy PurgeOne Advance Clear Roll TellSuccessor TellPredecessor '
          'Adopt Rolled Leave Promote PassOn Stay ReEnter ReturnHomeFresh ReturnHomeDirty Left HomeWrite Look').split()
