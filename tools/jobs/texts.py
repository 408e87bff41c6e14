"""Jobs to try: random ones, ones at the limits, and texts that are damaged in one place or two."""
import random


def text_of(page, width, cut, items):
    lines = [f"cap\t{page}\n", f"width\t{width}\n", f"cut\t{cut}\n"]
    return "".join(lines + [f"item\t{weight}\t{profit}\n" for weight, profit in items]).encode()


def random_job(dice):
    count = dice.choice((0, 1, 2, 3, 4, 5, 6, 8, 10, 12, 16))
    weight, profit = dice.choice((1, 3, 10, 100, 65_535)), dice.choice((1, 3, 10, 100, 1_000_000))
    items = [(dice.randint(0, weight), dice.randint(0, profit)) for _ in range(count)]
    whole = sum(w for w, _ in items)
    page = min(65_535, dice.choice((0, 1, whole, whole // 2, whole // 3, dice.randint(0, whole + 1))))
    return page, dice.choice((1, 1, 2, 3, 5, 8, 32, 256)), dice.choice(("lel", "frontier")), items


def at_a_limit(dice):
    """A job that one refusal number is near to."""
    page, width, cut, items = random_job(dice)
    way = dice.randrange(8)
    if way == 0:
        items = (items or [(1, 1)]) * 70
        items = items[:dice.choice((63, 64, 65, 66))]
        page = sum(w for w, _ in items)
        page = min(page, dice.choice((65_535, 65_535, 65_536)))
        items = [(min(w, 1_000), p) for w, p in items]
    elif way == 1:
        page = dice.choice((65_535, 65_536, 999_999_999))
    elif way == 2:
        items.append((dice.choice((65_535, 65_536, 999_999_999)), 1))
    elif way == 3:
        items.append((1, dice.choice((1_000_000, 1_000_001, 999_999_999))))
    elif way == 4:
        width = dice.choice((0, 1, 256, 257, 999_999_999))
    elif way == 5:
        items = [(dice.randint(1, 60), dice.randint(1, 60)) for _ in range(dice.randint(18, 40))]
        page, width = sum(w for w, _ in items) // 2, dice.choice((1, 3, 64, 256))
    elif way == 6:
        items = [(1, dice.randint(0, 9)) for _ in range(64)]
        page = dice.choice((0, 64, 65))
    else:
        width, items = 0, items + [(65_536, 1_000_001)]
    return page, width, cut, items


def damaged(dice, text):
    """The text with one small fault; it may stay within the grammar."""
    at = dice.randrange(len(text) + 1)
    way = dice.randrange(14)
    if way == 0:
        return text[:at] + text[at + 1:]
    if way == 1:
        return text[:at] + bytes([dice.randrange(256)]) + text[at:]
    if way == 2:
        return text[:at] + bytes([dice.randrange(256)]) + text[at + 1:]
    if way == 3:
        return text[:at]
    if way == 4:
        return text.replace(b"\n", b"\r\n", dice.choice((1, -1)))
    if way == 5:
        return text.replace(b"\t", b" ", dice.choice((1, -1)))
    if way == 6:
        return text.replace(b"\t", b"\t0", 1) if dice.random() < 0.5 else text.replace(b"\t", b"\t-", 1)
    if way == 7:
        return text + dice.choice((b"\n", b"item\t1\t1", b"cap\t1\n", b" ", b"\0", b"item\t1\t1\t1\n", b"item\t1\n"))
    if way == 8:
        lines = text.splitlines(keepends=True)
        dice.shuffle(lines)
        return b"".join(lines)
    if way == 9:
        lines = text.splitlines(keepends=True)
        line = dice.choice(lines) if lines else b"\n"
        return text.replace(line, line + line, 1)
    if way == 10:
        return text.replace(b"\t", b"\t1000000000", 1)
    if way == 11:
        return b"" if dice.random() < 0.2 else text.upper()
    if way == 12:
        return text + b"item\t0\t0\n" * ((dice.choice((65_535, 65_536, 65_544)) - len(text)) // 9 + 1)
    return text.replace(b"\t", b"\t+", 1)


def texts(count, seed):
    dice = random.Random(seed)
    for _ in range(count):
        job = at_a_limit(dice) if dice.random() < 0.2 else random_job(dice)
        text = text_of(*job)
        if dice.random() < 0.4:
            for _ in range(dice.randint(1, 2)):
                text = damaged(dice, text)
        yield text
