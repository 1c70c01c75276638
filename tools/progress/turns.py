"""The table of turns, taken in one go: what a node's next turn asks of the line as it stands, and whom it waits for."""
from states import IDLE, part, steps_from

WAITS, ENDS = 'waits', 'ends'
GOALS = ('load', 'write', 'evict')
NOTES_HEAD = ('Queue', 'Requeue')     # a turn notes the head that memory names; an event may note any
NEVER_WAITS = {'Fetching': 'ReturnMemory', 'WritingBack': 'ReturnMemory', 'Holding': 'Unhold', 'Copying': 'ReturnCopy',
               'Ready': 'Settle', 'Advancing': 'Advance', 'Clearing': 'Clear', 'Parted': 'Left', 'Unlinked': 'Rolled'}


def is_free(tag, *kinds):
    """There, of one of these kinds, and not held."""
    return tag is not None and tag.kind in kinds and not tag.held


def idle(state, me, goal):
    """How an operation begins."""
    tag, is_head = state.tags[me], state.memory.forw == (me,)
    if tag.held:
        return WAITS
    if tag.kind == 'Invalid':
        return ENDS if goal == 'evict' else 'Queue'
    if tag.kind == 'Purged':
        return WAITS
    if goal == 'load':
        return 'Hold'
    if tag.kind == 'Valid':
        return 'Roll'
    if goal == 'write' and tag.kind == 'Dirty':
        return 'BeginPurge'
    return ('Leave' if goal == 'evict' else 'Convert') if is_head else WAITS


def queueing(state, me, goal):
    """Before the head that it found."""
    if state.memory.lent:
        return WAITS
    if part(state.steps[me], 'kept') != state.memory.forw:
        return 'Requeue'
    newcomer = 'HomeWrite' if goal == 'write' else 'PrependValid'
    return {'Home': newcomer, 'Fresh': 'PrependValid', 'Gone': 'PrependGone'}[state.memory.state]


def in_queue(state, me, next_tag):
    """In the list, in front of the old head."""
    step = state.steps[me]
    if next_tag is None:
        return 'Settle'
    dirty, has_copy = part(step, 'flag'), part(step, 'copy') is not None
    if not dirty and has_copy and is_free(next_tag, 'Fresh'):
        return 'AttachFresh'
    return 'AttachDirty' if dirty and not has_copy and is_free(next_tag, 'Dirty') else WAITS


def purging(me, next_tag):
    """It purges the entries behind it, and writes."""
    if next_tag is None:
        return 'Written'
    if is_free(next_tag, 'Valid'):
        return 'PurgeOne'
    return 'Adopt' if is_free(next_tag, 'Roll') and next_tag.back != (me,) else WAITS


def leaving(state, me, next_tag):
    """A head on its way out."""
    if state.memory.forw != (me,):
        return 'Stay'
    if next_tag is None:
        return 'ReturnHomeDirty' if part(state.steps[me], 'flag') else 'ReturnHomeFresh'
    return 'Promote' if is_free(next_tag, 'Valid') and next_tag.back == (me,) else WAITS


def rolling(state, me, next_tag):
    """A body entry on its way out."""
    if not part(state.steps[me], 'flag') and next_tag is not None:
        return 'TellSuccessor' if is_free(next_tag, 'Valid') and next_tag.back == (me,) else WAITS
    previous = tag_at(state, state.tags[me].back)
    told = is_free(previous, 'Fresh', 'Dirty', 'Valid', 'Purging', 'Leaving', 'Roll') and previous.forw == (me,)
    return 'TellPredecessor' if told else WAITS


def tag_at(state, link):
    """The tag that a link names, or None."""
    return None if link is None else state.tags[link[0]]


def plan(state, me, goal):
    """What the node's next turn comes to: an event, WAITS, or ENDS."""
    step, is_head = state.steps[me], state.memory.forw == (me,)
    next_tag = tag_at(state, state.tags[me].forw)
    if step.phase in NEVER_WAITS:
        return NEVER_WAITS[step.phase]
    if step.phase == 'Converting':
        return 'Converted' if part(step, 'flag') else 'FreshToGone' if is_head else 'Unconverted'
    if step.phase == 'Promoted':
        return 'PassOn' if is_head else 'ReEnter'
    return {'Idle': lambda: idle(state, me, goal), 'Queueing': lambda: queueing(state, me, goal),
            'InQueue': lambda: in_queue(state, me, next_tag), 'Purging': lambda: purging(me, next_tag),
            'Leaving': lambda: leaving(state, me, next_tag), 'Rolling': lambda: rolling(state, me, next_tag)}[step.phase]()


def looked(state, me):
    """The state once the node has looked at its own tag."""
    return next((after for event, _, after in steps_from(state, me) if event == 'Look'), state)


def turn(state, me, goal):
    """The plan, and the state after its turn, taken in one go; no state where the exchange misses."""
    event = plan(state, me, goal)
    if event in (WAITS, ENDS):
        return event, state
    afters = (after for made, bound, after in steps_from(looked(state, me), me)
              if made == event and (event not in NOTES_HEAD or bound['forw'] == state.memory.forw))
    return event, next(afters, None)


def mover(state):
    """The first node that isn't Idle and doesn't wait, or None."""
    under_way = (me for me, step in enumerate(state.steps) if step != IDLE)
    return next((me for me in under_way if plan(state, me, 'load') != WAITS), None)


def first(nodes):
    """The first of these, or None, where no lawful line has none."""
    return next(iter(nodes), None)


def delays(state, link):
    """Who is to go on before the entry that a link names can: who holds it, who purges it, or itself."""
    if link is None:
        return None
    (entry,) = link
    tag = state.tags[entry]
    if tag.held and state.steps[entry].phase == 'Holding':
        return entry
    phases, name = (('Copying',), 'node') if tag.held else (('Advancing', 'Clearing'), 'node')
    if tag.held or tag.kind == 'Purged':
        return first(node for node, step in enumerate(state.steps) if step.phase in phases and part(step, name) == entry)
    return entry


def before(state, me):
    """Whom a Rolling node waits for that has told its successor, or has none."""
    for node, tag in enumerate(state.tags):
        if tag.forw == (me,) and (tag.kind == 'Purging' or state.steps[node].phase == 'Rolling'):
            return node
    return delays(state, state.tags[me].back)


def keeps_waiting(state, entry):
    """The nodes that keep an Idle entry waiting: one copies from it, purges it, or stands in front of it, as long as it hasn't attached
    it or handed memory on to it."""
    names = {'Copying': ('node', entry), 'Advancing': ('node', entry), 'Clearing': ('node', entry), 'Promoted': ('node', entry),
             'Fetching': ('kept', (entry,)), 'InQueue': ('kept', (entry,))}
    return [node for node, step in enumerate(state.steps) if step.phase in names and part(step, names[step.phase][0]) == names[step.phase][1]]


def waits_for(state, me, goal='load'):
    """Whom a node's next turn towards a goal waits for, or None where it makes an exchange or ends. Only of an Idle node the goal matters."""
    step = state.steps[me]
    if plan(state, me, goal) != WAITS:
        return None
    if step == IDLE:
        return first(keeps_waiting(state, me))
    if step.phase == 'Queueing':
        return first(node for node, each in enumerate(state.steps) if each.phase in ('Fetching', 'WritingBack'))
    if step.phase == 'Rolling' and (part(step, 'flag') or state.tags[me].forw is None):
        return before(state, me)
    return delays(state, state.tags[me].forw)
