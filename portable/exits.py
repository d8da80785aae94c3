"""Where exits lead. In the MIR an exit says how many blocks and loops it leaves; here it says which: the block whose end it goes to, or
the loop whose next round it begins. A block that no exit leaves is no more than its statements.
"""
from .term import Statement, Unknown


def led(statements, around=()):
    """The statements, each exit with its block or loop; none behind one that never goes on."""
    found = []
    for statement in statements:
        if statement.kind == 'exit':
            if statement.parts[0] >= len(around):
                raise Unknown("the MIR has an exit that leads to no block's end.")
            found.append(Statement('exit', around[-1 - statement.parts[0]]))
        elif statement.kind in ('block', 'loop'):
            found += entered(statement, around)
        elif statement.kind == 'if':
            found.append(Statement('if', statement.parts[0], *[led(body, around) for body in statement.parts[1:]]))
        elif statement.kind == 'switch':
            found.append(Statement('switch', statement.parts[0], [(keys, led(body, around)) for keys, body in statement.parts[1]]))
        else:
            found.append(statement)
        if found and found[-1].kind in ('exit', 'return', 'unreachable'):
            break
    return found


def entered(statement, around):
    made = Statement(statement.kind, [])
    made.parts[0].extend(led(statement.parts[0], (*around, made)))
    return [made] if made.kind == 'loop' or left(made, made.parts[0]) else made.parts[0]


def left(target, statements):
    """Whether an exit among the statements leads there."""
    return any(s.kind == 'exit' and s.parts[0] is target or any(left(target, body) for body in s.inner()) for s in statements)
