"""Facts of a model, as it is read here: nothing is solved."""

from math import lcm

from . import shown

MOST_PARTS = 200_000


def components(states, inner):
    """The strongly connected components of some states by their inner choices, by Tarjan's algorithm without recursion."""
    index, low, stack, on_stack, found, count = {}, {}, [], set(), [], 0
    for root in states:
        work = [] if root in index else [(root, iter(successors(inner, root)))]
        while work:
            s, targets = work[-1]
            if s not in index:
                index[s] = low[s] = count
                count += 1
                stack.append(s)
                on_stack.add(s)
            target = next((t for t in targets if t not in index or t in on_stack), None)
            if target is None:
                work.pop()
                if work:
                    low[work[-1][0]] = min(low[work[-1][0]], low[s])
                if low[s] == index[s]:
                    cut = stack.index(s) if stack[-1] != s else len(stack) - 1
                    found.append(stack[cut:])
                    on_stack.difference_update(stack[cut:])
                    del stack[cut:]
            elif target in index:
                low[s] = min(low[s], index[target])
            else:
                work.append((target, iter(successors(inner, target))))
    return found


def successors(inner, s):
    return [target for row in inner[s] for target in row]


def end_components(model):
    """The maximal end components: sets of states with choices that stay inside and connect them."""
    inner = {s: [[target for target, _ in choice.row] for choice in state.choices] for s, state in enumerate(model.states)}
    whole = set(inner)
    while True:
        parts = components(sorted(whole), {s: [row for row in inner[s] if whole.issuperset(row)] for s in whole})
        part_of = {s: number for number, part in enumerate(parts) for s in part}
        kept = {s: [row for row in inner[s] if all(part_of.get(target) == part_of[s] for target in row)] for s in whole}
        left = {s for s in whole if kept[s]}
        if left == whole and all(len(kept[s]) == len(inner[s]) for s in whole):
            return [sorted(part) for part in parts]
        whole, inner = left, {s: kept[s] for s in left}


def denominators(model):
    """The longest denominator of a probability, and of a whole row."""
    single = row = 1
    for state in model.states:
        for choice in state.choices:
            single = max([single, *(value.denominator for _, value in choice.row)])
            row = max(row, lcm(*(value.denominator for _, value in choice.row)))
    return single, row


def bits_text(model):
    """The longest denominators, and what they mean for `solve`: the probabilities of a policy are fractions below the product of its rows' denominators."""
    single, row = denominators(model)
    active = sum(any(target != s for choice in state.choices for target, _ in choice.row) for s, state in enumerate(model.states))
    bits = (row - 1).bit_length()
    if bits * active <= 127:
        means = f"exact probabilities have at most {max(bits * active, 1)} bits, and solve writes up to 127"
    else:
        means = "exact values may have more than the 127 bits that solve writes; where they do, bounds are asked for"
    return [("longest denominator", f"{single}; of a whole row {row}, {bits} bit{'s' * (bits != 1)}: {means}")]


def reward_lines(model):
    for number, name in enumerate(model.names):
        values = [choice.rewards[number] for state in model.states for choice in state.choices]
        low, high = min(values), max(values)
        if name != "-" or low or high:
            yield f'reward "{name}"', f"from {shown.exact_text(low)} to {shown.exact_text(high)} a choice"


def facts(model):
    """Pairs of what is said and what it comes to."""
    choices = sum(len(state.choices) for state in model.states)
    entries = sum(len(choice.row) for state in model.states for choice in state.choices)
    single = sum(len(state.choices) == 1 for state in model.states)
    labels = {}
    for state in model.states:
        for label in dict.fromkeys(state.labels):
            labels[label] = labels.get(label, 0) + 1
    starts = model.states_with("init")
    found = [
        ("type", "Markov chain" if model.is_chain else "Markov decision process"),
        ("states", f"{len(model.states)}, {single} of them with one choice"),
        ("choices", str(choices)),
        ("transitions", str(entries)),
        ("initial state", str(starts[0]) if len(starts) == 1 else f"{len(starts)} states have the label init"),
        *((f'label "{label}"', f"{count} state{'s' * (count > 1)}") for label, count in labels.items()),
        *reward_lines(model),
        *bits_text(model),
    ]
    if entries <= MOST_PARTS:
        parts = end_components(model)
        single_states = sum(len(part) == 1 for part in parts)
        found.append(("end components", f"{len(parts)}, {single_states} of them of one state, the greatest of {max(map(len, parts))} states"))
    return found
