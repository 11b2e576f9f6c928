"""Gives the objects of a function's frame arrays of C. The module marks where an object begins to be needed and where it ends. Two
objects that are never needed at the same time may have the same array, without which some calls would need three times the stack."""
from kinds import up_to
from middle import Object

WORD_BYTES = 8


def arrays_of(function):
    """Returns the array of each object by its name, from 0, and the length of each array in words of eight bytes."""
    sizes = {it.result.name: max(1, up_to(it.size, WORD_BYTES) // WORD_BYTES) for it in function.instructions() if isinstance(it, Object)}
    apart = needed_together(function, sizes)
    arrays, lengths, members = {}, [], []
    for name in sorted(sizes, key=lambda it: (-sizes[it], it)):
        free = (k for k, others in enumerate(members) if not apart[name] & others)
        k = next(free, len(lengths))
        if k == len(lengths):
            lengths.append(sizes[name])  # the greatest, since it comes first
            members.append(set())
        arrays[name] = k
        members[k].add(name)
    return arrays, lengths


def needed_together(function, sizes):
    """Returns for each object those that are needed with it at some point of the function. Without a mark it is always needed."""
    marks = {block.name: [(it.item.name, it.is_begin) for it in block.lives()] for block in function.blocks}
    marked = {name for events in marks.values() for name, _ in events}
    always = set(sizes) - marked
    together = {name: set(always) if name in marked else set(sizes) for name in sizes}
    blocks = {it.name: it for it in function.blocks}
    entering, left = {function.blocks[0].name: set()}, [function.blocks[0].name]
    while left:
        name = left.pop()
        needed = set(entering[name])
        for item, is_begin in [(None, True), *marks[name]]:
            if item in sizes:
                (needed.add if is_begin else needed.discard)(item)
            for it in needed:
                together[it] |= needed
        for target in blocks[name].targets():
            if target not in entering or not needed <= entering[target]:
                entering[target] = entering.get(target, set()) | needed
                left.append(target)
    return together
