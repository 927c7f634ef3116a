"""The lists between the steps, by the requirements alone: replay, the stages of both plans, the judge, the first match.

Nothing here is proved or shared with the Rattle sources. `tools/picture` draws what the programs say, and compares it with this.
"""


def replayed(kind, rules, now, command):
    """The list after a command, or the number of its fault."""
    name, one = command[0], command[1]
    rule = one if kind == 1 else command[2] if name == "ins" else None
    if rule is not None and rule >= rules:
        return 23
    if kind == 1:
        if (rule in now) == (name == "app"):
            return 20 if name == "app" else 21
        return now + [rule] if name == "app" else [r for r in now if r != rule]
    places = [one, command[2]] if name == "mov" else [one]
    if any(not 1 <= i <= len(now) + (name == "ins") for i in places):
        return 22
    if name == "ins":
        return 20 if rule in now else now[:one - 1] + [rule] + now[one - 1:]
    rest = now[:one - 1] + now[one:]
    return rest if name == "del" else rest[:command[2] - 1] + [now[one - 1]] + rest[command[2] - 1:]


def lists(kind, rules, initial, commands):
    """The initial list and the one after each command; the number of a fault stands last where one breaks the replay."""
    run = [list(initial)]
    for command in commands:
        run.append(replayed(kind, rules, run[-1], command))
        if isinstance(run[-1], int):
            break
    return run


class Plan:
    """A plan as it is made: the commands, and what each rule is when the next one is sent: kept, settled, waiting or ahead."""

    def __init__(self, kind, rules, initial, kept):
        self.kind, self.rules, self.now, self.kept = kind, rules, list(initial), list(kept)
        self.commands, self.stages, self.is_now = [], [], {r: "ahead" for r in initial}
        self.is_now.update({r: "kept" for r in kept})

    def shown(self):
        self.stages.append({r: self.is_now[r] for r in self.now})

    def send(self, *command):
        self.shown()
        self.commands.append(command)
        self.now = replayed(self.kind, self.rules, self.now, command)

    def settle(self, rule):
        if rule not in self.kept:
            self.is_now[rule] = "settled"

    def wait(self, rules):
        self.is_now.update({r: "waiting" for r in rules})


def plan_one(rules, initial, target):
    kept = []
    for rule in target:
        if rule not in initial or kept and initial.index(rule) < initial.index(kept[-1]):
            break
        kept.append(rule)
    plan = Plan(1, rules, initial, kept)
    plan.wait([r for r in initial if r not in kept])
    for rule in [r for r in reversed(initial) if r not in kept]:
        plan.send("del", rule)
    for rule in target[len(kept):]:
        plan.send("app", rule)
        plan.settle(rule)
    plan.shown()
    return plan


def own_choice(initial, target):
    kept = []
    for rule in target:
        if rule in initial and (not kept or initial.index(rule) > initial.index(kept[-1])):
            kept.append(rule)
    return kept


def first_stage(plan, initial, target):
    front = 0
    for rule in target:
        place = plan.now.index(rule) if rule in plan.now else None
        if rule not in initial:
            plan.send("ins", front + 1, rule)
        elif rule in plan.kept:
            plan.wait(plan.now[front:place])
            front = place
        elif place < front:
            continue
        elif place > front:
            plan.send("mov", place + 1, front + 1)
        plan.settle(rule)
        front += 1
    plan.wait(plan.now[front:])


def second_stage(plan, target):
    for rule in [r for r in reversed(plan.now) if plan.is_now[r] == "waiting"]:
        place = plan.now.index(rule) + 1
        if rule not in target:
            plan.send("del", place)
            continue
        rest = [r for r in plan.now if r != rule]
        after = [r for r in target[target.index(rule) + 1:] if plan.is_now.get(r) in ("kept", "settled")]
        plan.send("mov", place, rest.index(after[0]) + 1 if after else len(rest) + 1)
        plan.settle(rule)


def plan_two(rules, initial, target, keep):
    plan = Plan(2, rules, initial, own_choice(initial, target) if keep is None else keep)
    first_stage(plan, initial, target)
    second_stage(plan, target)
    plan.shown()
    return plan


UNNAMED = -1


def missing_above(policy, now, place):
    """The first rule before this one in the policy that doesn't stand before it in the list: None if none is missing, UNNAMED where the policy doesn't name it."""
    if now[place] not in policy:
        return UNNAMED
    before = set(now[:place])
    return next((r for r in policy[:policy.index(now[place])] if r not in before), None)


def full(initial, target, now):
    return set(initial) <= set(now) or set(target) <= set(now)


def verdict(initial, target, run):
    """The verdict on the lists of a replay, with its step and its place."""
    if isinstance(run[-1], int):
        return (run[-1], len(run) - 1)
    if run[-1] != target:
        return (24, len(run) - 1)
    for step, now in enumerate(run):
        for place in range(len(now)):
            if all(missing_above(p, now, place) is not None for p in (initial, target)):
                return (30, step, place + 1)
    return (32,) if all(full(initial, target, now) for now in run) else (31,)


def matches(rule, flow):
    ends = [(1, 1), (3, 4), (11, 2), (15, 4), (23, 2)]
    return all(int.from_bytes(rule[a:a + w], "big") <= n <= int.from_bytes(rule[a + w:a + 2 * w], "big") for n, (a, w) in zip(flow, ends))


def decided(rules, default, now, flow):
    """The action on a flow by a list with this default, and the rule that decides it or None."""
    rule = next((r for r in now if matches(rules[r], flow)), None)
    return (default, None) if rule is None else ("permit" if rules[rule][0] else "deny", rule)
