"""What `trace` tells of each turn, worked by hand from the walks and the tables of docs/PROTOCOL.md. A page has the same text."""

import re

from kinds import Little, WholePage, refused

# Two readers, one after the other.
TWO_SHARERS = (
    "# node 0 line 0 load: Queue(none) Done; Queueing(none); HOME\n"
    "# node 0 line 0 load: PrependValid Done; Fetching(none); FRESH lent 0: 0 QUEUED\n"
    "# node 0 line 0 load: ReturnMemory Done; InQueue(none); FRESH 0: 0 QUEUED\n"
    "# node 0 line 0 load: Settle Done; Idle; FRESH 0: 0 ONLY_FRESH\n"
    "node 0 read 0 stamp 0\n"
    "# node 1 line 0 load: Queue(0) Done; Queueing(0); FRESH 0: 0 ONLY_FRESH\n"
    "# node 1 line 0 load: PrependValid Done; Fetching(0); FRESH lent 1: 1 QUEUED, 0 ONLY_FRESH\n"
    "# node 1 line 0 load: ReturnMemory Done; InQueue(0); FRESH 1: 1 QUEUED, 0 ONLY_FRESH\n"
    "# node 1 line 0 load: AttachFresh(0 ONLY_FRESH) Done; Ready(0); FRESH 1: 1 QUEUED, 0 TAIL_VALID\n"
    "# node 1 line 0 load: Settle Done; Idle; FRESH 1: 1 HEAD_FRESH, 0 TAIL_VALID\n"
    "node 1 read 0 stamp 0\n"
)

# Each walk: a script, the status, the trace, and what is told on standard error.
WALKS = [
    # Two readers, and then the head stores.
    (
        "memory 2 1\nload 0 0 0\ndone 0\nload 1 0 0\ndone 1\nlist 0\nstore 1 0 0 5\ndone 1\n",
        0,
        (
            TWO_SHARERS
            + "line 0 FRESH 1: 1 HEAD_FRESH, 0 TAIL_VALID\n"
            "# node 1 line 0 store: Convert(HEAD_FRESH) Done; Converting(0); FRESH 1: 1 CONVERT, 0 TAIL_VALID\n"
            "# node 1 line 0 store: FreshToGone Done; Converting(0) turned; GONE 1: 1 CONVERT, 0 TAIL_VALID\n"
            "# node 1 line 0 store: Converted Done; Purging; GONE 1: 1 PURGING, 0 TAIL_VALID\n"
            "# node 1 line 0 store: PurgeOne(0 TAIL_VALID) Done; Advancing(0); GONE 1: 1 PURGING, 0 PURGED\n"
            "# node 1 line 0 store: Advance Done; Clearing(0); GONE 1: 1 PURGING\n"
            "# node 1 line 0 store: Clear Done; Purging; GONE 1: 1 PURGING\n"
            "# node 1 line 0 store: Written(words 5 0 0 0 0 0 0 0) Done; Idle; GONE 1: 1 ONLY_DIRTY\n"
            "node 1 wrote stamp 1\n"
        ),
        "",
    ),
    # Two readers that find nobody. Then a call is begun out of place.
    (
        "memory 2 1\nload 0 0 0\nturn 0\nload 1 0 0\nturn 1\nturn 0\nturn 1\nturn 0\nturn 1\nload 1 0 0\n",
        1,
        (
            "# node 0 line 0 load: Queue(none) Done; Queueing(none); HOME\n"
            "# node 1 line 0 load: Queue(none) Done; Queueing(none); HOME\n"
            "# node 0 line 0 load: PrependValid Done; Fetching(none); FRESH lent 0: 0 QUEUED\n"
            "# node 1 line 0 load: waits: memory is lent; Queueing(none); FRESH lent 0: 0 QUEUED; for node 0\n"
            "node 1 waits\n"
            "# node 0 line 0 load: ReturnMemory Done; InQueue(none); FRESH 0: 0 QUEUED\n"
            "# node 1 line 0 load: Requeue(0) Done; Queueing(0); FRESH 0: 0 QUEUED\n"
        ),
        refused("16 at line 10"),
    ),
    # A sharer that reads its own copy, while another node comes.
    (
        "memory 2 1\nadd 0 0 7 9\ndone 0\nload 0 0 7\nturn 0\nload 1 0 7\nturn 1\nturn 1\nturn 1\ntag 0 0\nturn 0\ndone 1\n",
        0,
        (
            "# node 0 line 0 add: Queue(none) Done; Queueing(none); HOME\n"
            "# node 0 line 0 add: HomeWrite Done; Fetching(none) dirty; GONE lent 0: 0 QUEUED\n"
            "# node 0 line 0 add: ReturnMemory Done; InQueue(none) dirty; GONE 0: 0 QUEUED\n"
            "# node 0 line 0 add: Settle Done; Idle; GONE 0: 0 ONLY_DIRTY\n"
            "# node 0 line 0 add: BeginPurge(ONLY_DIRTY) Done; Purging; GONE 0: 0 PURGING\n"
            "# node 0 line 0 add: Written(words 0 0 0 0 0 0 0 9) Done; Idle; GONE 0: 0 ONLY_DIRTY\n"
            "node 0 wrote stamp 1\n"
            "# node 0 line 0 load: Hold(ONLY_DIRTY) Done; Holding; GONE 0: 0 ONLY_DIRTY held\n"
            "# node 1 line 0 load: Queue(0) Done; Queueing(0); GONE 0: 0 ONLY_DIRTY held\n"
            "# node 1 line 0 load: PrependGone Done; InQueue(0) dirty; GONE 1: 1 QUEUED, 0 ONLY_DIRTY held\n"
            "# node 1 line 0 load: waits: node 0 is ONLY_DIRTY forw none back none held; InQueue(0) dirty; GONE 1: 1 QUEUED, 0 ONLY_DIRTY held; for node 0\n"
            "node 1 waits\n"
            "tag 0 0 ONLY_DIRTY forw - back - held\n"
            "# node 0 line 0 load: Unhold Done; Idle; GONE 1: 1 QUEUED, 0 ONLY_DIRTY\n"
            "node 0 read 9 stamp 1\n"
            "# node 1 line 0 load: AttachDirty(0 ONLY_DIRTY) Done; Copying(0); GONE 1: 1 QUEUED, 0 TAIL_VALID held\n"
            "# node 1 line 0 load: ReturnCopy Done; Ready(0) dirty; GONE 1: 1 QUEUED, 0 TAIL_VALID\n"
            "# node 1 line 0 load: Settle Done; Idle; GONE 1: 1 HEAD_DIRTY, 0 TAIL_VALID\n"
            "node 1 read 9 stamp 1\n"
        ),
        "",
    ),
    # A node whose cache has room for one line leaves that line's list first; then it leaves the other, and once more.
    (
        "memory 1 2\ncapacity 1\nload 0 0 0\ndone 0\nload 0 1 0\ndone 0\nresidents 0\nevict 0 1\ndone 0\nevict 0 1\nturn 0\n",
        0,
        (
            "# node 0 line 0 load: Queue(none) Done; Queueing(none); HOME\n"
            "# node 0 line 0 load: PrependValid Done; Fetching(none); FRESH lent 0: 0 QUEUED\n"
            "# node 0 line 0 load: ReturnMemory Done; InQueue(none); FRESH 0: 0 QUEUED\n"
            "# node 0 line 0 load: Settle Done; Idle; FRESH 0: 0 ONLY_FRESH\n"
            "node 0 read 0 stamp 0\n"
            "# node 0 line 0 evict: Leave(ONLY_FRESH) Done; Leaving; FRESH 0: 0 LEAVING\n"
            "# node 0 line 0 evict: ReturnHomeFresh Done; Parted(none); HOME\n"
            "# node 0 line 0 evict: Left Done; Idle; HOME\n"
            "# node 0 line 1 load: Queue(none) Done; Queueing(none); HOME\n"
            "# node 0 line 1 load: PrependValid Done; Fetching(none); FRESH lent 0: 0 QUEUED\n"
            "# node 0 line 1 load: ReturnMemory Done; InQueue(none); FRESH 0: 0 QUEUED\n"
            "# node 0 line 1 load: Settle Done; Idle; FRESH 0: 0 ONLY_FRESH\n"
            "node 0 read 0 stamp 0\n"
            "node 0 residents 1\n"
            "# node 0 line 1 evict: Leave(ONLY_FRESH) Done; Leaving; FRESH 0: 0 LEAVING\n"
            "# node 0 line 1 evict: ReturnHomeFresh Done; Parted(none); HOME\n"
            "# node 0 line 1 evict: Left Done; Idle; HOME\n"
            "node 0 out\n"
            "# node 0 line 1 evict: only looked; Idle; HOME\n"
            "node 0 out\n"
        ),
        "",
    ),
    # Two neighbours that leave at once: the one nearer the tail goes first, and the head waits for it.
    (
        "memory 2 1\nload 0 0 0\ndone 0\nload 1 0 0\ndone 1\nevict 0 0\nturn 0\nevict 1 0\nturn 1\nturn 1\nturn 0\nturn 0\ndone 1\n",
        0,
        (
            "# node 0 line 0 load: Queue(none) Done; Queueing(none); HOME\n"
            "# node 0 line 0 load: PrependValid Done; Fetching(none); FRESH lent 0: 0 QUEUED\n"
            "# node 0 line 0 load: ReturnMemory Done; InQueue(none); FRESH 0: 0 QUEUED\n"
            "# node 0 line 0 load: Settle Done; Idle; FRESH 0: 0 ONLY_FRESH\n"
            "node 0 read 0 stamp 0\n"
            "# node 1 line 0 load: Queue(0) Done; Queueing(0); FRESH 0: 0 ONLY_FRESH\n"
            "# node 1 line 0 load: PrependValid Done; Fetching(0); FRESH lent 1: 1 QUEUED, 0 ONLY_FRESH\n"
            "# node 1 line 0 load: ReturnMemory Done; InQueue(0); FRESH 1: 1 QUEUED, 0 ONLY_FRESH\n"
            "# node 1 line 0 load: AttachFresh(0 ONLY_FRESH) Done; Ready(0); FRESH 1: 1 QUEUED, 0 TAIL_VALID\n"
            "# node 1 line 0 load: Settle Done; Idle; FRESH 1: 1 HEAD_FRESH, 0 TAIL_VALID\n"
            "node 1 read 0 stamp 0\n"
            "# node 0 line 0 evict: Roll(TAIL_VALID) Done; Rolling; FRESH 1: 1 HEAD_FRESH, 0 ROLL\n"
            "# node 1 line 0 evict: Leave(HEAD_FRESH) Done; Leaving; FRESH 1: 1 LEAVING, 0 ROLL\n"
            "# node 1 line 0 evict: waits: node 0 is ROLL forw none back 1; Leaving; FRESH 1: 1 LEAVING, 0 ROLL; for node 0\n"
            "node 1 waits\n"
            "# node 0 line 0 evict: TellPredecessor(1 LEAVING) Done; Unlinked(none); FRESH 1: 1 LEAVING\n"
            "# node 0 line 0 evict: Rolled Done; Idle; FRESH 1: 1 LEAVING\n"
            "node 0 out\n"
            "# node 1 line 0 evict: ReturnHomeFresh Done; Parted(none); HOME\n"
            "# node 1 line 0 evict: Left Done; Idle; HOME\n"
            "node 1 out\n"
        ),
        "",
    ),
    # A node that shares nothing stores the largest word.
    (
        "memory 1 1\nstore 0 0 2 18446744073709551615\ndone 0\n",
        0,
        (
            "# node 0 line 0 store: Queue(none) Done; Queueing(none); HOME\n"
            "# node 0 line 0 store: HomeWrite Done; Fetching(none) dirty; GONE lent 0: 0 QUEUED\n"
            "# node 0 line 0 store: ReturnMemory Done; InQueue(none) dirty; GONE 0: 0 QUEUED\n"
            "# node 0 line 0 store: Settle Done; Idle; GONE 0: 0 ONLY_DIRTY\n"
            "# node 0 line 0 store: BeginPurge(ONLY_DIRTY) Done; Purging; GONE 0: 0 PURGING\n"
            "# node 0 line 0 store: Written(words 0 0 18446744073709551615 0 0 0 0 0) Done; Idle; GONE 0: 0 ONLY_DIRTY\n"
            "node 0 wrote stamp 1\n"
        ),
        "",
    ),
    # A head that leaves while another prepends.
    (
        "memory 2 1\nstore 0 0 0 7\ndone 0\nevict 0 0\nturn 0\nload 1 0 0\nturn 1\nturn 1\nturn 0\nlist 0\nturn 0\ndone 1\ndone 0\nlist 0\n",
        0,
        (
            "# node 0 line 0 store: Queue(none) Done; Queueing(none); HOME\n"
            "# node 0 line 0 store: HomeWrite Done; Fetching(none) dirty; GONE lent 0: 0 QUEUED\n"
            "# node 0 line 0 store: ReturnMemory Done; InQueue(none) dirty; GONE 0: 0 QUEUED\n"
            "# node 0 line 0 store: Settle Done; Idle; GONE 0: 0 ONLY_DIRTY\n"
            "# node 0 line 0 store: BeginPurge(ONLY_DIRTY) Done; Purging; GONE 0: 0 PURGING\n"
            "# node 0 line 0 store: Written(words 7 0 0 0 0 0 0 0) Done; Idle; GONE 0: 0 ONLY_DIRTY\n"
            "node 0 wrote stamp 1\n"
            "# node 0 line 0 evict: Leave(ONLY_DIRTY) Done; Leaving dirty; GONE 0: 0 LEAVING\n"
            "# node 1 line 0 load: Queue(0) Done; Queueing(0); GONE 0: 0 LEAVING\n"
            "# node 1 line 0 load: PrependGone Done; InQueue(0) dirty; GONE 1: 1 QUEUED, 0 LEAVING\n"
            "# node 0 line 0 evict: Stay Done; Idle; GONE 1: 1 QUEUED, 0 ONLY_DIRTY\n"
            "line 0 GONE 1: 1 QUEUED, 0 ONLY_DIRTY\n"
            "# node 0 line 0 evict: waits: memory names 1; Idle; GONE 1: 1 QUEUED, 0 ONLY_DIRTY; for node 1\n"
            "node 0 waits\n"
            "# node 1 line 0 load: AttachDirty(0 ONLY_DIRTY) Done; Copying(0); GONE 1: 1 QUEUED, 0 TAIL_VALID held\n"
            "# node 1 line 0 load: ReturnCopy Done; Ready(0) dirty; GONE 1: 1 QUEUED, 0 TAIL_VALID\n"
            "# node 1 line 0 load: Settle Done; Idle; GONE 1: 1 HEAD_DIRTY, 0 TAIL_VALID\n"
            "node 1 read 7 stamp 1\n"
            "# node 0 line 0 evict: Roll(TAIL_VALID) Done; Rolling; GONE 1: 1 HEAD_DIRTY, 0 ROLL\n"
            "# node 0 line 0 evict: TellPredecessor(1 HEAD_DIRTY) Done; Unlinked(none); GONE 1: 1 ONLY_DIRTY\n"
            "# node 0 line 0 evict: Rolled Done; Idle; GONE 1: 1 ONLY_DIRTY\n"
            "node 0 out\n"
            "line 0 GONE 1: 1 ONLY_DIRTY\n"
        ),
        "",
    ),
    # An Idle node waits for who purges it, before and behind the purge's next step; for who copies from it; and, as a new head, for the
    # leaver that memory still names.
    (
        "memory 2 1\nload 1 0 0\ndone 1\nload 0 0 0\ndone 0\nstore 0 0 0 5\nturn 0\nturn 0\nturn 0\nturn 0\nload 1 0 0\nturn 1\nturn 0\nturn 1\nturn 0\n",
        0,
        (
            "# node 1 line 0 load: Queue(none) Done; Queueing(none); HOME\n"
            "# node 1 line 0 load: PrependValid Done; Fetching(none); FRESH lent 1: 1 QUEUED\n"
            "# node 1 line 0 load: ReturnMemory Done; InQueue(none); FRESH 1: 1 QUEUED\n"
            "# node 1 line 0 load: Settle Done; Idle; FRESH 1: 1 ONLY_FRESH\n"
            "node 1 read 0 stamp 0\n"
            "# node 0 line 0 load: Queue(1) Done; Queueing(1); FRESH 1: 1 ONLY_FRESH\n"
            "# node 0 line 0 load: PrependValid Done; Fetching(1); FRESH lent 0: 0 QUEUED, 1 ONLY_FRESH\n"
            "# node 0 line 0 load: ReturnMemory Done; InQueue(1); FRESH 0: 0 QUEUED, 1 ONLY_FRESH\n"
            "# node 0 line 0 load: AttachFresh(1 ONLY_FRESH) Done; Ready(1); FRESH 0: 0 QUEUED, 1 TAIL_VALID\n"
            "# node 0 line 0 load: Settle Done; Idle; FRESH 0: 0 HEAD_FRESH, 1 TAIL_VALID\n"
            "node 0 read 0 stamp 0\n"
            "# node 0 line 0 store: Convert(HEAD_FRESH) Done; Converting(1); FRESH 0: 0 CONVERT, 1 TAIL_VALID\n"
            "# node 0 line 0 store: FreshToGone Done; Converting(1) turned; GONE 0: 0 CONVERT, 1 TAIL_VALID\n"
            "# node 0 line 0 store: Converted Done; Purging; GONE 0: 0 PURGING, 1 TAIL_VALID\n"
            "# node 0 line 0 store: PurgeOne(1 TAIL_VALID) Done; Advancing(1); GONE 0: 0 PURGING, 1 PURGED\n"
            "# node 1 line 0 load: waits: node 1 is PURGED forw none back 0; Idle; GONE 0: 0 PURGING, 1 PURGED; for node 0\n"
            "node 1 waits\n"
            "# node 0 line 0 store: Advance Done; Clearing(1); GONE 0: 0 PURGING\n"
            "# node 1 line 0 load: waits: node 1 is PURGED forw none back 0; Idle; GONE 0: 0 PURGING; for node 0\n"
            "node 1 waits\n"
            "# node 0 line 0 store: Clear Done; Purging; GONE 0: 0 PURGING\n"
        ),
        "",
    ),
    (
        "memory 2 1\nstore 0 0 0 7\ndone 0\nload 1 0 0\nturn 1\nturn 1\nturn 1\nload 0 0 0\nturn 0\nturn 1\nturn 1\nevict 1 0\nturn 1\nturn 1\ndone 0\nstore 0 0 0 8\nturn 0\n",
        0,
        (
            "# node 0 line 0 store: Queue(none) Done; Queueing(none); HOME\n"
            "# node 0 line 0 store: HomeWrite Done; Fetching(none) dirty; GONE lent 0: 0 QUEUED\n"
            "# node 0 line 0 store: ReturnMemory Done; InQueue(none) dirty; GONE 0: 0 QUEUED\n"
            "# node 0 line 0 store: Settle Done; Idle; GONE 0: 0 ONLY_DIRTY\n"
            "# node 0 line 0 store: BeginPurge(ONLY_DIRTY) Done; Purging; GONE 0: 0 PURGING\n"
            "# node 0 line 0 store: Written(words 7 0 0 0 0 0 0 0) Done; Idle; GONE 0: 0 ONLY_DIRTY\n"
            "node 0 wrote stamp 1\n"
            "# node 1 line 0 load: Queue(0) Done; Queueing(0); GONE 0: 0 ONLY_DIRTY\n"
            "# node 1 line 0 load: PrependGone Done; InQueue(0) dirty; GONE 1: 1 QUEUED, 0 ONLY_DIRTY\n"
            "# node 1 line 0 load: AttachDirty(0 ONLY_DIRTY) Done; Copying(0); GONE 1: 1 QUEUED, 0 TAIL_VALID held\n"
            "# node 0 line 0 load: waits: node 0 is TAIL_VALID forw none back 1 held; Idle; GONE 1: 1 QUEUED, 0 TAIL_VALID held; for node 1\n"
            "node 0 waits\n"
            "# node 1 line 0 load: ReturnCopy Done; Ready(0) dirty; GONE 1: 1 QUEUED, 0 TAIL_VALID\n"
            "# node 1 line 0 load: Settle Done; Idle; GONE 1: 1 HEAD_DIRTY, 0 TAIL_VALID\n"
            "node 1 read 7 stamp 1\n"
            "# node 1 line 0 evict: Leave(HEAD_DIRTY) Done; Leaving dirty; GONE 1: 1 LEAVING, 0 TAIL_VALID\n"
            "# node 1 line 0 evict: Promote(0 TAIL_VALID) Done; Promoted(0) dirty; GONE 1: 1 LEAVING, 0 ONLY_DIRTY\n"
            "# node 0 line 0 load: Hold(ONLY_DIRTY) Done; Holding; GONE 1: 1 LEAVING, 0 ONLY_DIRTY held\n"
            "# node 0 line 0 load: Unhold Done; Idle; GONE 1: 1 LEAVING, 0 ONLY_DIRTY\n"
            "node 0 read 7 stamp 1\n"
            "# node 0 line 0 store: BeginPurge(ONLY_DIRTY) Done; Purging; GONE 1: 1 LEAVING, 0 PURGING\n"
        ),
        "",
    ),
    (
        "memory 2 1\nload 0 0 0\ndone 0\nload 1 0 0\ndone 1\nevict 1 0\nturn 1\nturn 1\nstore 0 0 0 5\nturn 0\nturn 1\n",
        0,
        (
            TWO_SHARERS
            + "# node 1 line 0 evict: Leave(HEAD_FRESH) Done; Leaving; FRESH 1: 1 LEAVING, 0 TAIL_VALID\n"
            "# node 1 line 0 evict: Promote(0 TAIL_VALID) Done; Promoted(0); FRESH 1: 1 LEAVING, 0 ONLY_FRESH\n"
            "# node 0 line 0 store: waits: memory names 1; Idle; FRESH 1: 1 LEAVING, 0 ONLY_FRESH; for node 1\n"
            "node 0 waits\n"
            "# node 1 line 0 evict: PassOn Done; Parted(0); FRESH 0: 0 ONLY_FRESH\n"
        ),
        "",
    ),
]


def asked(node):
    """What a node is asked for whose cache has room for one line: each operation, and a victim's eviction in front of the second load."""
    return (
        f"load {node} 0 0\ndone {node}\nstore {node} 0 0 5\ndone {node}\nadd {node} 0 0 1\ndone {node}\n"
        f"load {node} 1 0\ndone {node}\nevict {node} 1\ndone {node}\n"
    )


def its_turns(node, word, stamp):
    """The turns of that, where line 0 is at home with this word and stamp, and line 1 with zeros."""
    return (
        f"# node {node} line 0 load: Queue(none) Done; Queueing(none); HOME\n"
        f"# node {node} line 0 load: PrependValid Done; Fetching(none); FRESH lent {node}: {node} QUEUED\n"
        f"# node {node} line 0 load: ReturnMemory Done; InQueue(none); FRESH {node}: {node} QUEUED\n"
        f"# node {node} line 0 load: Settle Done; Idle; FRESH {node}: {node} ONLY_FRESH\n"
        f"node {node} read {word} stamp {stamp}\n"
        f"# node {node} line 0 store: Convert(ONLY_FRESH) Done; Converting(none); FRESH {node}: {node} CONVERT\n"
        f"# node {node} line 0 store: FreshToGone Done; Converting(none) turned; GONE {node}: {node} CONVERT\n"
        f"# node {node} line 0 store: Converted Done; Purging; GONE {node}: {node} PURGING\n"
        f"# node {node} line 0 store: Written(words 5 0 0 0 0 0 0 0) Done; Idle; GONE {node}: {node} ONLY_DIRTY\n"
        f"node {node} wrote stamp {stamp + 1}\n"
        f"# node {node} line 0 add: BeginPurge(ONLY_DIRTY) Done; Purging; GONE {node}: {node} PURGING\n"
        f"# node {node} line 0 add: Written(words 6 0 0 0 0 0 0 0) Done; Idle; GONE {node}: {node} ONLY_DIRTY\n"
        f"node {node} wrote stamp {stamp + 2}\n"
        f"# node {node} line 0 evict: Leave(ONLY_DIRTY) Done; Leaving dirty; GONE {node}: {node} LEAVING\n"
        f"# node {node} line 0 evict: ReturnHomeDirty Done; WritingBack; HOME lent\n"
        f"# node {node} line 0 evict: ReturnMemory Done; Parted(none); HOME\n"
        f"# node {node} line 0 evict: Left Done; Idle; HOME\n"
        f"# node {node} line 1 load: Queue(none) Done; Queueing(none); HOME\n"
        f"# node {node} line 1 load: PrependValid Done; Fetching(none); FRESH lent {node}: {node} QUEUED\n"
        f"# node {node} line 1 load: ReturnMemory Done; InQueue(none); FRESH {node}: {node} QUEUED\n"
        f"# node {node} line 1 load: Settle Done; Idle; FRESH {node}: {node} ONLY_FRESH\n"
        f"node {node} read 0 stamp 0\n"
        f"# node {node} line 1 evict: Leave(ONLY_FRESH) Done; Leaving; FRESH {node}: {node} LEAVING\n"
        f"# node {node} line 1 evict: ReturnHomeFresh Done; Parted(none); HOME\n"
        f"# node {node} line 1 evict: Left Done; Idle; HOME\n"
        f"node {node} out\n"
    )


# Each of 1,024 nodes is asked for each operation, one node after the other. Each leaves 6 in line 0, and two stamps more.
NODES = range(1024)
EACH_NODE = (
    "memory 1024 2\ncapacity 1\n" + "".join(map(asked, NODES)),
    0,
    "".join(its_turns(node, 6 if node else 0, 2 * node) for node in NODES),
    "",
)

# A `done` that is refused has one line for all turns that wait.
UNENDED = "memory 2 1\nload 0 0 0\nturn 0\nturn 0\nload 1 0 0\nturn 1\ndone 1\n"
ITS_TRACE = (
    "# node 0 line 0 load: Queue(none) Done; Queueing(none); HOME\n"
    "# node 0 line 0 load: PrependValid Done; Fetching(none); FRESH lent 0: 0 QUEUED\n"
    "# node 1 line 0 load: Queue(0) Done; Queueing(0); FRESH lent 0: 0 QUEUED\n"
    "# node 1 line 0 load: waits 100000 times: memory is lent; Queueing(0); FRESH lent 0: 0 QUEUED; for node 0\n"
)

# An exit that waits behind turns that don't.
LEAVING = "memory 2 1\nload 0 0 0\ndone 0\nload 1 0 0\ndone 1\nevict 0 0\nturn 0\nevict 1 0\ndone 1\n"
ITS_EXIT = (
    "".join(f"{line}\n" for line in WALKS[4][2].splitlines()[:13])
    + "# node 1 line 0 evict: waits 99999 times: node 0 is ROLL forw none back 1; Leaving; FRESH 1: 1 LEAVING, 0 ROLL; for node 0\n"
)

# A load that waits once by a command of its own, and then in a `done`.
TWICE = UNENDED.replace("done 1", "turn 1\ndone 1")
ITS_TURNS = ITS_TRACE.replace("# node 1 line 0 load: waits", "# node 1 line 0 load: waits: memory is lent; Queueing(0); FRESH lent 0: 0 QUEUED; for node 0\nnode 1 waits\n# node 1 line 0 load: waits")

TRACED = [
    *WALKS, EACH_NODE, (UNENDED, 1, ITS_TRACE, refused("18 at line 7")), (LEAVING, 1, ITS_EXIT, refused("18 at line 9")),
    (TWICE, 1, ITS_TURNS, refused("18 at line 8")),
]

# So it takes little memory, of 1,024 nodes too.
LITTLE = Little(UNENDED, 6_000_000)

TURN = re.compile(r"# node (\d+) line (\d+) [a-z ]+: ([^;]*); (\w+)")
TIMES = re.compile(r"waits (\d+) times: ")

# In these steps a turn begins with a look at the own tag.
LOOKING = ("Idle", "Purging", "Leaving", "Rolling")


def logged(script, trace):
    """The log of a script with this trace."""
    log = [row for row in script.splitlines() if row.startswith(("memory ", "open "))]
    steps = {}
    for row in trace.splitlines():
        if found := TURN.match(row):
            node, line, what, step = found.groups()
            if steps.get((node, line), "Idle") in LOOKING:
                times = TIMES.match(what)
                log.extend([f"node {node} line {line} Look Done"] * (int(times[1]) if times else 1))
            if what.endswith(" Done"):
                log.append(f"node {node} line {line} {what}")
            steps[node, line] = step
    return "\n".join(log) + "\n"


# The log of the first walk, worked by hand.
ITS_LOG = (
    "memory 2 1\n"
    "node 0 line 0 Look Done\n"
    "node 0 line 0 Queue(none) Done\n"
    "node 0 line 0 PrependValid Done\n"
    "node 0 line 0 ReturnMemory Done\n"
    "node 0 line 0 Settle Done\n"
    "node 1 line 0 Look Done\n"
    "node 1 line 0 Queue(0) Done\n"
    "node 1 line 0 PrependValid Done\n"
    "node 1 line 0 ReturnMemory Done\n"
    "node 1 line 0 AttachFresh(0 ONLY_FRESH) Done\n"
    "node 1 line 0 Settle Done\n"
    "node 1 line 0 Look Done\n"
    "node 1 line 0 Convert(HEAD_FRESH) Done\n"
    "node 1 line 0 FreshToGone Done\n"
    "node 1 line 0 Converted Done\n"
    "node 1 line 0 Look Done\n"
    "node 1 line 0 PurgeOne(0 TAIL_VALID) Done\n"
    "node 1 line 0 Advance Done\n"
    "node 1 line 0 Clear Done\n"
    "node 1 line 0 Look Done\n"
    "node 1 line 0 Written(words 5 0 0 0 0 0 0 0) Done\n"
)
assert ITS_LOG == logged(*WALKS[0][::2])

CASES = [
    *((["trace", "--log"], script, status, logged(script, text), error) for script, status, text, error in TRACED),
    (["trace", "--log"], "memory 2 2\ncapacity 1\nopen 1 3 1 2 3 4 5 6 7 8\nopen 1 4 0 0 0 0 0 0 0 18446744073709551615\n", 0,
     "memory 2 2\nopen 1 3 1 2 3 4 5 6 7 8\nopen 1 4 0 0 0 0 0 0 0 18446744073709551615\n", ""),
    (["trace"], LITTLE, 1, ITS_TRACE, refused("18 at line 7")),
    (["trace", "--page"], LITTLE, 1, WholePage(ITS_TRACE), refused("18 at line 7")),
    *((["trace"], script, status, text, error) for script, status, text, error in TRACED),
    *((["trace", "--page"], script, status, WholePage(text), error) for script, status, text, error in TRACED),
]

# What `trace` does with these, as text and as a page, is what `script` does.
ALIKE = [script for script, *_ in TRACED]
