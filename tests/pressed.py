"""Scenarios under memory pressure: few frames, a high target, objects that several tasks share, and kernel threads that
scan, force, purge, tick and kill."""

STATE_WORDS = (1, 1, 1, 33, 65, 65, 257, 577, 1793, 0, 0, 0, 2, 3, 4096)


def limit(rng):
    return f"{rng.choice((0, 1, 2, 3, 5, 65536, 65536, 65536))} {rng.choice(('soft', 'soft', 'soft', 'fatal'))}"


def task_line(rng, number, form):
    line = f"task {number} band {rng.choice((0, 0, 0, 1, 2, 5, 20))} active {limit(rng)} inactive {limit(rng)}"
    if form == 2:
        line += f" delay {rng.randint(1, 4)} ageing {rng.randint(1, 2)}"
    return line + rng.choice(("", "", "", " internal"))


def head_lines(rng, form):
    frames = rng.randint(1, 12)
    line = f"system frames {frames} target {max(0, frames + rng.randint(-1, 1))} inactive {rng.randint(0, 4)}"
    line += f" store {rng.randint(0, 6)} critical {rng.choice((0, 0, 1, frames, frames + 1))}"
    return [f"jetlab {form}", line + (f" delay {rng.randint(1, 4)}" if form == 1 else "")]


def any_of(rng, **weights):
    return rng.choices(list(weights), list(weights.values()))[0]


def task_call(rng, own, others):
    o = rng.choice(others) if others and rng.random() < 0.03 else rng.choice(own)
    kind = any_of(rng, write=12, read=8, set=8, map=3, attach=2, get=1, unmap=1, active=1, ledger=1)
    if kind in ("write", "read"):
        offset = max(0, rng.choice((0, 0, 1, 4094, 4096, 8190, 12288, 4294967295)) - rng.choice((0, 0, 1)))
        data = bytes(rng.randrange(256) for _ in range(rng.choice((1, 2, 3, 4, 8, 256))))
        return f"write {o} {offset} {data.hex()}" if kind == "write" else f"read {o} {offset} {len(data)}"
    if kind == "set":
        return f"set {o} {rng.choice(STATE_WORDS)}"
    if kind == "active":
        return f"active {rng.randint(0, 1)}"
    return kind if kind == "ledger" else f"{kind} {o}"


def kernel_call(rng, tasks):
    kind = any_of(rng, scan=12, purge=4, force=2, tick=2, info=1, volatiles=1, band=1, limits=1)
    if kind == "band":
        return f"band {rng.randrange(tasks)} {rng.choice((0, 0, 1, 2, 7, 20))}"
    if kind == "limits":
        return f"limits {rng.randrange(tasks)} {limit(rng)} {limit(rng)}"
    return kind


def script(rng, first, calls, call, last):
    """Calls of one thread, many of them from a few; `last` comes seldom, since it ends a task."""
    few = [call() for _ in range(min(calls, 120))]
    lines = first[:calls] + rng.choices(few, k=max(0, calls - len(first)))
    if calls and rng.random() < (0.3 if calls < 100 else 0.05):
        lines[rng.randrange(calls * 3 // 4, calls)] = last
    return lines


def scenario(rng, threads, calls):
    """The text of a scenario with so many threads, which have so many calls together; its order is random."""
    form = rng.choice((1, 2))
    tasks = rng.randint(1, min(8, 1 + calls // 12))
    lines = head_lines(rng, form) + [task_line(rng, t, form) for t in range(tasks)]
    objects = rng.randint(1, min(10, 1 + calls // 12))
    shares = [sorted(rng.sample(range(tasks), rng.randint(1, min(3, tasks)))) for _ in range(objects)]
    lines += [f"object {o} task {' '.join(map(str, own))} pages {rng.randint(1, 4)}" for o, own in enumerate(shares)]
    left = calls
    for thread in range(threads):
        count = left // (threads - thread)
        left -= count
        task = rng.randrange(tasks)
        own = [o for o, of in enumerate(shares) if task in of]
        if not own or (thread % 4 == 3) or (threads > 1 and thread == threads - 1):
            lines.append(f"thread {thread} kernel")
            lines += script(rng, [], count, lambda: kernel_call(rng, tasks), "jetsam")
        else:
            lines.append(f"thread {thread} task {task}")
            others = [o for o in range(len(shares)) if o not in own]
            first = [f"{rng.choice(('map', 'map', 'attach'))} {o}" for o in own]
            lines += script(rng, first, count, lambda: task_call(rng, own, others), "exit")
    turns = min(calls, rng.choice((0, calls // 2, calls)))
    order = " ".join(map(str, rng.choices(range(threads), k=turns))) if threads else ""
    lines += [f"order {order}".rstrip(), "end", ""]
    return "\n".join(lines).encode()
