"""Specifications and traces at random, the same at each run."""

SIGNALS = {"p": "bool", "q": "bool", "r": "bool", "x": "int", "y": "int"}
INPUTS = "INPUT p, q, r: bool; x, y: int;\n"


def window(dice):
    low = dice.randint(0, 2)
    return f"[{low},{low + dice.randint(0, 3)}]"


def number(dice):
    return dice.choice(("x", "y", "x + y", "x - 1", "2 * y", "-x", "x % 2", str(dice.randint(-2, 2)).replace("-", "0 - ")))


def atom(dice, simple):
    if dice.random() < 0.6:
        return dice.choice("pqr")
    if not simple and dice.random() < 0.1:
        return dice.choice(("true", "false"))
    sign = dice.choice(("==", "!=", "<", "<=", ">", ">=")[: 2 if simple else 6])
    return f"({number(dice)} {sign} {number(dice)})"


def formula(dice, depth, past, simple):
    """A formula with at most `depth` operators in one another."""
    if depth == 0 or dice.random() < 0.1:
        return atom(dice, simple)
    inner = [formula(dice, depth - 1, past, simple) for _ in range(2)]
    kind = dice.random()
    if kind < 0.12:
        return f"!({inner[0]})"
    if kind < 0.5:
        return f"({inner[0]}) {dice.choice(('&&', '||', '->', '<->'))} ({inner[1]})"
    if kind < 0.75:
        return f"{dice.choice('OH' if past else 'FG')}{window(dice)} ({inner[0]})"
    return f"({inner[0]}) {'S' if past else dice.choice('UR')}{window(dice)} ({inner[1]})"


def spec(dice, simple=False):
    """One output `f`, now and then a contract or over a definition; a simple one has no constant and no order."""
    past = dice.random() < 0.35
    text, body = INPUTS, formula(dice, dice.randint(1, 4), past, simple)
    if dice.random() < 0.25:
        text += f"DEFINE part := {body};\n"
        body = f"part && {formula(dice, 2, past, simple)}" if dice.random() < 0.5 else "part"
    if dice.random() < 0.2:
        body = f"{body} => {formula(dice, 2, past, simple)}"
    return f"{text}{'PTSPEC' if past else 'FTSPEC'} f: {body};\n"


def cell(dice, name):
    return dice.randint(0, 1) if SIGNALS[name] == "bool" else dice.randint(-3, 3)


def row(dice):
    return [cell(dice, name) for name in SIGNALS]


def text_of(rows):
    return "".join(",".join(map(str, fields)) + "\n" for fields in rows)
