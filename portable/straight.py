"""Exits as C says them. An exit that leads where the way goes by itself is nothing; what it keeps from running stands in the other branch
of its test; one out of the loop around it is `break`, one to its next round `continue`; and what is left of them goes to a label.
"""
import re

from . import values
from .layout import NAME, Choice, Group, Label, Leave, Line


def needed(choice):
    """The choice without branches in which nothing is done; of one that does nothing, what its test calls."""
    branches = choice.branches
    while branches and not branches[-1][1]:
        branches = branches[:-1]
    if not branches:
        test = choice.branches[0][0]
        return [Line(test.text + ';')] if test.effect == values.CALLS else []
    if len(branches) == 2 and not branches[0][1] and branches[1][0] is None:
        branches = [(values.negation(branches[0][0]), branches[1][1])]
    choice.branches = branches
    return [choice]


def reached(nodes, following):
    """The blocks and loops that a way at the start of these nodes comes to with nothing done."""
    found = set()
    for node in nodes:
        if not isinstance(node, Label):
            return found
        found.add(node.target)
    return found | set(following)


def straight(nodes, following=()):
    """The nodes with as few exits as may be. `following`: the blocks and loops that their end leads to."""
    i = 0
    while i < len(nodes):
        node, behind = nodes[i], reached(nodes[i + 1:], following)
        if isinstance(node, Leave) and node.target in behind:
            nodes = nodes[:i] + nodes[i + 1:]
            continue
        if isinstance(node, Choice):
            node.branches = [(test, straight(body, behind)) for test, body in node.branches]
            joined(node)
            kept = needed(node)
            if kept and taken_in(nodes, i, following):
                continue  # the branch that has taken in what stood behind is gone through again
            nodes[i:i + 1] = kept
            i += len(kept)
            continue
        if isinstance(node, Group):
            node.parts = [(head, straight(body, node.leads[:1])) for head, body in node.parts]
        i += 1
    return nodes


def joined(choice):
    """A test inside another one, with nothing else there and an exit to a block's end behind it, is one with it."""
    while len(choice.branches) == 1 and len(choice.branches[0][1]) == 1 and isinstance(choice.branches[0][1][0], Choice):
        (test, (within,)), = choice.branches
        if len(within.branches) != 1 or leads(within.branches[0][1]) is None:
            return
        choice.branches = [(values.lazily('and', test, within.branches[0][0]), within.branches[0][1])]


def leads(body):
    """The block to whose end the last of these nodes exits, or None."""
    last = body[-1] if body else None
    return last.target if isinstance(last, Leave) and last.target.kind == 'block' else None


def ends(body):
    """Whether the way doesn't come to the end of the nodes."""
    last = body[-1] if body else None
    return isinstance(last, Leave) or getattr(last, 'text', '').startswith('return')


def taken_in(nodes, i, following):
    """What stands behind a choice, up to the block's end to which all its branches but one exit, goes into that one."""
    branches = nodes[i].branches
    targets = {leads(body) for _, body in branches} - {None}
    places = {target: next((j for j in range(i + 1, len(nodes)) if isinstance(nodes[j], Label) and nodes[j].target is target), None)
              for target in targets}
    places.update((target, len(nodes)) for target in targets if places[target] is None and target in following)
    ways = [k for k, (_, body) in enumerate(branches) if not ends(body)]
    if branches[-1][0] is not None:
        ways.append(len(branches))
    found = sorted(place for place in places.values() if place is not None)
    if len(ways) != 1 or not found or found[0] == i + 1:
        return False
    rest = nodes[i + 1:found[0]]
    if ways[0] == len(branches):
        branches.append((None, rest))
        nodes[i].chained = True
    else:
        branches[ways[0]][1].extend(rest)
    del nodes[i + 1:found[0]]
    return True


def every(nodes, kind):
    """The nodes of a kind, those inside others too."""
    for node in nodes:
        if isinstance(node, kind):
            yield node
        for _, body in node.parts if isinstance(node, Group) else ():
            yield from every(body, kind)


def without(nodes, unwanted):
    """The nodes without these."""
    for group in every(nodes, Group):
        for _, body in group.parts:
            body[:] = [node for node in body if node not in unwanted]
    return [node for node in nodes if node not in unwanted]


def told(nodes, loop=(None, None), texts=None):
    """Writes each exit as text, and its label where it has one."""
    texts = {} if texts is None else texts
    for node in nodes:
        if isinstance(node, Group):
            for _, body in node.parts:
                told(body, node.leads if node.loop else loop, texts)
        elif isinstance(node, Label):
            if node.target in texts:
                node.text = texts[node.target] + ':;'
        elif isinstance(node, Leave):
            if node.target in loop:
                node.text = 'continue;' if node.target is loop[0] else 'break;'
            else:
                node.text = 'goto %s;' % texts.setdefault(node.target, 'end%d' % (len(texts) + 1))


def chained(nodes):
    """Choices that are all of another's last branch, as the rest of that one."""
    for choice in reversed(list(every(nodes, Choice))):
        test, body = choice.branches[-1]
        if choice.chained and test is None and len(body) == 1 and isinstance(body[0], Choice):
            choice.branches[-1:] = body[0].branches


def written_out(nodes):
    """The nodes of a function, its exits written."""
    amount = None
    while amount != len(list(every(nodes, Leave))):
        amount = len(list(every(nodes, Leave)))
        wanted = {exit_.target for exit_ in every(nodes, Leave)}
        nodes = straight(without(nodes, [label for label in every(nodes, Label) if label.target not in wanted]))
    told(nodes)
    nodes = without(nodes, [label for label in every(nodes, Label) if not label.text])
    chained(nodes)
    return nodes


def unread(nodes, name):
    """The nodes without the lines that set a variable, where nothing else names it; of one that calls a function, the call."""
    named = [line for line in every(nodes, Line) if line.mentions(name)]
    heads = any(name in NAME.findall(head) for group in every(nodes, Group) for head, _ in group.parts)
    calls = [line for line in named if re.fullmatch(re.escape(name) + r' = \w+\([^()]*\);', line.text)]
    idle = not heads and all(line.sets == name and line.text.count(name) == 1 and ('(' not in line.text or line in calls) for line in named)
    for line in calls if idle else []:
        line.text, line.sets = line.text.split(' = ', 1)[1], None
    return without(nodes, [line for line in named if line not in calls]) if idle else nodes
