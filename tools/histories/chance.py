"""Histories by chance, legal or with one change, and settings of workloads by chance."""

MOST = 2**64 - 1


def words(by):
    return [by.choice((0, 1, 7, MOST)) for _ in range(8)]


def line_of(by, nodes):
    """A legal line: its contents by stamp, and by node what it saw of them, in order."""
    writes = by.randrange(6)
    first = by.choice((0, 5, MOST - writes))
    contents = [words(by) for _ in range(writes + 1)]
    lists = [[] for _ in range(nodes)]
    for at, content in enumerate(contents):
        if at:
            lists[by.randrange(nodes)].append(["wrote", first + at, content, contents[at - 1]])
        for each in lists:
            each += [[by.choice(("read", "passed")), first + at, content, []] for _ in range(by.choice((0, 0, 1, 2)))]
    return [first, contents[0]], [first + writes, contents[-1]], lists


def text_of(nodes, lines):
    def row(label, number, stamp, words, before=()):
        over = ["over", *before] if before else []
        return " ".join(str(it) for it in [label, number, stamp, *words, *over])

    rows = [f"scihistory 1 {nodes} {len(lines)}"]
    for number, (opening, closing, lists) in enumerate(lines):
        rows += [row("line", number, *opening), row("closed", number, *closing)]
        rows += [row(it[0], node, *it[1:]) for node, each in enumerate(lists) for it in each]
    return "\n".join([*rows, "end", ""])


def other(by, words):
    at = by.randrange(8)
    return [*words[:at], (words[at] + 1) % 2**64, *words[at + 1 :]]


def change(by, line):
    """Changes one thing of a line."""
    opening, closing, lists = line
    places = [(each, place) for each in lists for place in range(len(each))]
    if not places or by.random() < 0.1:
        content = by.choice((opening, closing))
        if by.random() < 0.5:
            content[0] = max(0, min(MOST, content[0] + by.choice((-1, 1))))
        else:
            content[1] = other(by, content[1])
        return
    each, place = by.choice(places)
    it = each[place]
    match by.randrange(7):
        case 0:
            del each[place]
        case 1:
            into = by.choice(lists)
            into.insert(sum(seen[1] < it[1] for seen in into), list(it))
        case 2:
            del each[place]
            into = by.choice(lists)
            into.insert(by.randrange(len(into) + 1), it)
        case 3:
            it[1] = max(0, min(MOST, it[1] + by.choice((-2, -1, 1, 2))))
        case 4:
            it[2] = other(by, it[2])
        case 5:
            it[3] = other(by, it[3]) if it[3] else it[3]
        case 6:
            at = by.randrange(len(each))
            each[place], each[at] = each[at], it


def settings(by):
    """The settings of a workload by chance, and how many nodes and lines it has."""
    nodes, capacity = by.randint(1, 8), by.randint(1, 4)
    match by.choice(("stencil", "ring", "count")):
        case "stencil":
            tiles = by.randint(1, 4)
            cells, phases = [by.randrange(2**63) for _ in range(7 * tiles)], by.randint(0, 9)
            text = f'work = "stencil"\nnodes = {nodes}\ncapacity = {capacity}\nphases = {phases}\ncells = {cells}\n'
            return text, nodes, 2 * tiles
        case "ring":
            lines, items = by.randint(1, 5), [by.randrange(2**63) for _ in range(by.randint(0, 40))]
            return f'work = "ring"\nlines = {lines}\ncapacity = {capacity}\nitems = {items}\n', 2, lines + 1
        case _:
            return f'work = "count"\nnodes = {nodes}\nadds = {by.randint(0, 300)}\ncapacity = {capacity}\n', nodes, 1
