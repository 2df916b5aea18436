"""Which shared definitions a pipeline needs."""
from .items import Options, UnitSet


def defined(items):
    return {key for item in items for key in item.defines()}


def needs_of(items):
    return {key for item in items for key in item.needs()}


def is_needed(item, wanted, own):
    """Whether shared `item` says anything of what is wanted or of what is defined in the pipeline's own files."""
    if isinstance(item, UnitSet):
        return any(key in wanted or key in own for key in item.needs())
    return isinstance(item, Options) or any(key in wanted and key not in own for key in item.defines())


def needed(own_items, shared):
    """Of `shared` items, in their order, those that a pipeline needs, and what these need in turn.

    A set statement is needed if one of its units is. Options are always: in a target they apply to all files.
    """
    own, wanted, chosen = defined(own_items), needs_of(own_items), {}
    grown = True
    while grown:
        more = {place: item for place, item in enumerate(shared)
                if place not in chosen and is_needed(item, wanted, own)}
        chosen.update(more)
        wanted |= needs_of(more.values())
        grown = bool(more)
    return [chosen[place].only(wanted - own) for place in sorted(chosen)]
