"""Cases that chance gives: tables with their files and reports, and both with something wrong, or something else right, in them."""
import model
import spec

LARGE = [61, 64, 65, 255, spec.MAX_STATES - 1, spec.MAX_STATES]
ODD_BYTES = b" \n\r\t\0\x0b0123456789:+-_.,eE\xc2\xa0\xd9\xa1none"


def table(rng):
    n = rng.choice(LARGE) if rng.random() < 0.03 else rng.randint(1, 17)
    some = lambda chance: {s for s in range(n) if rng.random() < chance}
    fan_out = rng.choice([0.5, 1, 2])
    steps = {(a, rng.randrange(n)) for a in range(n) for _ in range(int(rng.expovariate(1 / fan_out)) + (rng.random() < 0.8))}
    groups = [some(0.4) for _ in range(rng.choice([0, 0, 1, 3]))]
    return spec.Table(n, some(1.5 / n), some(rng.choice([0, 1 / n])), steps, groups, some(rng.choice([0, 0.5, 1])))


def report(drawn, verdict, states, count=0, size=None):
    joined = spec.listing(states)
    third = f"invariant {len(states) if size is None else size}: {joined}" if verdict == "safe" else f"path {joined}"
    return f"states {drawn.n} groups {len(drawn.groups)}\n{verdict} refinements {count}\n{third}\n".encode()


def closed(drawn, rng):
    """Some set with every initial state, in which steps stay: an invariant, unless it has a forbidden state."""
    return sorted(model.reached(drawn, drawn.initial | {s for s in range(drawn.n) if rng.random() < 0.1}))


def walk(drawn, rng):
    """Some steps from an initial state to a forbidden one, or to where they end."""
    found = [rng.choice(sorted(drawn.initial or {0}))]
    while found[-1] not in drawn.forbidden() and len(found) < 40 and (row := drawn.row(found[-1])):
        found.append(rng.choice(sorted(row)))
    return found


# ---- reports

def other_report(drawn, rng):
    """Another text of the form: mostly wrong, and sometimes as right."""
    verdict, states = ("safe", closed(drawn, rng)) if rng.random() < 0.5 else ("unsafe", walk(drawn, rng))
    some_state = lambda: rng.randrange(drawn.n + 1)
    match rng.randrange(10):
        case 0:
            states = states[1:] or states
        case 1:
            states = states[:-1]
        case 2:
            states = sorted(states + [some_state()])
        case 3:
            states = rng.sample(states, len(states))
        case 4 if states:
            states = [*states, states[-1]]
        case 5 if states:
            states = [some_state() if rng.random() < 0.2 else s for s in states]
        case 6:
            return report(drawn, verdict, states, rng.choice([0, 1, drawn.n, drawn.n + 1, 512, 513, 10**9, -1]))
        case 7:
            return report(drawn, verdict, states, size=len(states) + rng.choice([-1, 1, 10]))
    return report(drawn, verdict, states)


def token(said, rng):
    """A number put another way, or another number."""
    places = [at for at, byte in enumerate(said) if chr(byte).isdigit() and (at == 0 or not chr(said[at - 1]).isdigit())]
    at = rng.choice(places)
    until = next(i for i in range(at, len(said) + 1) if i == len(said) or not chr(said[i]).isdigit())
    old = said[at:until]
    new = rng.choice([b"+" + old, b"-" + old, b"0" + old, b" " + old, old + b" ", old + b"_0", b"0x" + old, old + b".0", b"%d" % (int(old) + 1), b"%d" % abs(int(old) - 1),
                      b"\xd9\xa0", b"\xef\xbc\x90", b"", b"none", old + b"\r", old + b"e0", b"0b" + old, b"9" * 3000])
    return said[:at] + new + said[until:]


def lines(said, other, rng):
    each = said.splitlines(True)
    at, to = rng.randrange(len(each)), rng.randrange(len(each))
    match rng.randrange(7):
        case 0:
            del each[at]
        case 1:
            each.insert(to, each[at])
        case 2:
            each[at], each[to] = each[to], each[at]
        case 3:
            each[at] = rng.choice(other.splitlines(True))
        case 4:
            each[at] = each[at].replace(b"safe", b"unsafe") if b"unsafe" not in each[at] else each[at].replace(b"unsafe", b"safe")
        case 5:
            each[at] = rng.choice([b"\n", b" ", b"refused 13\n", b"undecided refinements 0\n", b"foo refinements 0\n", b"None\n", b"path \n", b"path none\n", b"path\n",
                                   b"invariant 0: none\n", b"invariant 0: \n", b"invariant 0:\n", b"invariant none\n", b"invariant 1: none\n"])
        case 6:
            each[at] = rng.choice([each[at].rstrip(b"\n"), each[at].replace(b"\n", b"\r\n"), b" " + each[at], each[at].replace(b"\n", b" \n"), each[at].upper(), each[at].replace(b" ", b"  ", 1)])
    return b"".join(each)


def spoilt_report(drawn, said, other, rng):
    at = rng.randrange(len(said))
    match rng.randrange(9):
        case 0:
            return other_report(drawn, rng)
        case 1:
            return token(said, rng)
        case 2:
            return lines(said, other, rng)
        case 3:
            return said[:at] + bytes([said[at] ^ 1 << rng.randrange(8)]) + said[at + 1 :]
        case 4:
            return said[:at] + bytes([rng.choice(ODD_BYTES)]) + said[at + rng.randrange(2) :]
        case 5:
            return said[:at] + said[at + 1 :]
        case 6:
            return said[:at]
        case 7:
            return said + rng.choice([b"\n", b" ", b"\0", said, other, b"refused 13\n"])
        case 8:
            return rng.choice([other, b"", b"\n" + said, b"\xef\xbb\xbf" + said, said.decode().encode("utf-16"), said * 2, b"refused 11\n"])


# ---- files

def sealed(file, site=0):
    """With the checks that its bytes call for."""
    return model.at_site(file, site) if len(file) % spec.BLOCK == 0 else file


def with_bits(file, rng):
    """Some bits changed, mostly in what the file holds."""
    until = len(file) if rng.random() < 0.2 else min(len(file), 60)
    changed = bytearray(file)
    for _ in range(rng.choice([1, 1, 2, 4])):
        changed[rng.randrange(until)] ^= 1 << rng.randrange(8)
    return bytes(changed)


def spoilt_file(file, other, rng):
    blocks = [file[at : at + spec.BLOCK] for at in range(0, len(file), spec.BLOCK)]
    others = [other[at : at + spec.BLOCK] for at in range(0, len(other), spec.BLOCK)] or [bytes(spec.BLOCK)]
    at, to = rng.randrange(len(blocks)), rng.randrange(len(blocks))
    match rng.randrange(10):
        case 0 | 1 | 2:
            return sealed(with_bits(file, rng))
        case 3:
            return with_bits(file, rng)
        case 4:
            return file[: rng.randrange(len(file))]
        case 5:
            blocks[at], blocks[to] = blocks[to], blocks[at]
        case 6:
            blocks[at] = rng.choice(others)
        case 7:
            blocks.insert(to, blocks[at])
        case 8:
            del blocks[at]
        case 9:
            return file + rng.choice([b"\0", bytes(spec.BLOCK), spec.sealed(len(blocks), b""), other, file])
    joined = b"".join(blocks)
    if rng.random() < 0.5:
        joined = b"".join(spec.two(k) + joined[spec.BLOCK * k + 2 : spec.BLOCK * (k + 1)] for k in range(len(blocks)))
        joined = sealed(joined)
    return joined
