# The step of the draft's sample interpreter, with its read and write limits (both M where none are said), and where a departure applies.
# A cell is [opcode, modifier, A mode, B mode, A number, B number], by 01's codes; the model changes the core that it is given.
DAT, MOV, ADD, SUB, MUL, DIV, MOD, JMP, JMZ, JMN, DJN, CMP, SEQ, SNE, SLT, SPL, NOP = range(17)
A, B, AB, BA, F, X, I = range(7)
OP, MODIFIER, AMODE, BMODE, ANUMBER, BNUMBER = range(6)
# (field of IRA, field of IRB and target)
PAIRS = [[(4, 4)], [(5, 5)], [(4, 5)], [(5, 4)], [(4, 4), (5, 5)], [(5, 4), (4, 5)], [(4, 4), (5, 5)]]


def fold(pointer, limit, size):
    result = pointer % limit
    return result + size - limit if result > limit // 2 else result


def evaluate(core, pc, mode, n, read, write):
    """RP, WP and the register; # $ * @ { < } >"""
    size = len(core)
    rp, wp, after = 0, 0, None
    if mode != 0:
        rp, wp = fold(n, read, size), fold(n, write, size)
        if mode != 1:
            field = BNUMBER if mode % 2 else ANUMBER
            at = core[(pc + wp) % size]
            if mode in (4, 5):
                at[field] = (at[field] + size - 1) % size
            if mode in (6, 7):
                after = at
            rp, wp = (fold(rp + core[(pc + rp) % size][field], read, size),
                      fold(wp + core[(pc + wp) % size][field], write, size))
    register = list(core[(pc + rp) % size])
    if after is not None:
        after[field] = (after[field] + 1) % size
    return rp, wp, register


def instruction(cell):
    return [SEQ if cell[OP] == CMP else cell[OP]] + cell[1:]


def operands(core, pc, read, write):
    """IR, the places PC + RPA and PC + WPB, IRA and IRB"""
    ir = list(core[pc])
    rpa, _, ira = evaluate(core, pc, ir[AMODE], ir[ANUMBER], read, write)
    _, wpb, irb = evaluate(core, pc, ir[BMODE], ir[BNUMBER], read, write)
    return ir, (pc + rpa) % len(core), (pc + wpb) % len(core), ira, irb


def step(core, pc, read=None, write=None):
    """The places queued, in order; the core is changed in place."""
    size = len(core)
    ir, jump, target, ira, irb = operands(core, pc, read or size, write or size)
    op, k = ir[OP], ir[MODIFIER]
    on, over = [(pc + 1) % size], [(pc + 2) % size]
    t = core[target]
    pairs = [(ira[a], irb[b], b) for a, b in PAIRS[k]]
    if op == DAT:
        return []
    if op == MOV:
        if k == I:
            core[target] = list(ira)
        else:
            for a, _, f in pairs:
                t[f] = a
    if op in (ADD, SUB, MUL):
        for a, b, f in pairs:
            t[f] = (b + a if op == ADD else b + size - a if op == SUB else b * a) % size
    if op in (DIV, MOD):
        for a, b, f in pairs:
            if a:
                t[f] = b // a if op == DIV else b % a
        if any(a == 0 for a, _, _ in pairs):
            return []
    zeros = all(b == 0 for _, b, _ in pairs)
    if op == JMP or op == JMZ and zeros or op == JMN and not zeros:
        return [jump]
    if op == DJN:
        for _, _, f in pairs:
            t[f] = (t[f] + size - 1) % size
        if any((b + size - 1) % size for _, b, _ in pairs):
            return [jump]
    equal = instruction(ira) == instruction(irb) if k == I else all(a == b for a, b, _ in pairs)
    if op in (CMP, SEQ) and equal or op == SNE and not equal or op == SLT and all(a < b for a, b, _ in pairs):
        return over
    return on + [jump] if op == SPL else on


def departures(core, pc, read=None, write=None):
    """Of 01's list, 1 to 6, those that apply, with 02's words for limits. The operands are this machine's: B's number is read again."""
    core = [list(c) for c in core]
    size = len(core)
    read, write = read or size, write or size
    op, k, am, bm, a, _ = core[pc]
    _, _, ira = evaluate(core, pc, am, a, read, write)
    b = core[pc][BNUMBER]
    rpb, wpb, _ = evaluate(core, pc, bm, b, read, write)
    live, target = core[(pc + rpb) % size], core[(pc + wpb) % size]
    whole = op in (CMP, SEQ, SNE) and k == I
    hits = bm in (6, 7) and fold(b, write, size) == rpb
    applies = [
        am in (5, 7) and fold(a, write, size) == 0,
        op == MOV and k == I and ira[AMODE:BMODE + 1] != target[AMODE:BMODE + 1],
        whole and hits or op == DJN and (hits or rpb != wpb),
        op in (DIV, MOD),
        op == JMZ and k in (F, X, I),
        whole and sorted((ira[OP], live[OP])) == [CMP, SEQ],
    ]
    return [number for number, yes in enumerate(applies, 1) if yes]
