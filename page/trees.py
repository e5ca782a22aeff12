"""Why a present's tree is refused: a cycle, too many nodes, too long a path, or one viewport twice."""
from __future__ import annotations

from collections.abc import Iterator

from draft import Draft, Misuse
from misuses import FENCES_MOST

NODES_MOST = 1024
PATH_MOST = 64
IDS_SHOWN = 12
NODES_COUNTED = 10**12


def ids_of(draft: Draft, path: list[int]) -> str:
    """A path, by the ids of its transforms; a long one without its middle."""
    ids = [draft.transforms[place].id for place in path]
    if len(ids) > IDS_SHOWN:
        ids = ids[:IDS_SHOWN // 2] + ["…"] + ids[-IDS_SHOWN // 2:]
    return " › ".join(ids)


def children_of(draft: Draft, place: int) -> list[int]:
    """The children of a transform, as places in the list of all."""
    return [child for child, _ in draft.transforms[place].children]


def find_cycle(draft: Draft) -> list[int] | None:
    """A path from the root whose last transform stands on it twice, if there is one."""
    if draft.root is None:
        return None
    path, rests, done = [draft.root], [iter(children_of(draft, draft.root))], set[int]()
    while path:
        child = next(rests[-1], None)
        if child is None:
            done.add(path.pop())
            rests.pop()
        elif child in path:
            return [*path, child]
        elif child not in done:
            path.append(child)
            rests.append(iter(children_of(draft, child)))
    return None


def in_postorder(draft: Draft, root: int) -> list[int]:
    """The transforms that a root reaches without a cycle, children before their parents."""
    order: list[int] = []
    seen: set[int] = set()
    waiting = [(root, False)]
    while waiting:
        place, has_children = waiting.pop()
        if has_children:
            order.append(place)
        elif place not in seen:
            seen.add(place)
            waiting.append((place, True))
            waiting += [(child, False) for child in children_of(draft, place)]
    return order


def size_misuses(draft: Draft) -> Iterator[Misuse]:
    """A tree without a cycle that is too large."""
    if draft.root is None:
        return
    nodes: dict[int, int] = {}
    lengths: dict[int, int] = {}
    for place in in_postorder(draft, draft.root):
        children = children_of(draft, place)
        nodes[place] = 1 + sum(nodes[child] for child in children)
        lengths[place] = 1 + max((lengths[child] for child in children), default=0)
    count = nodes[draft.root]
    if count > NODES_MOST:
        many = "{:,}".format(count) if count < NODES_COUNTED else "more than 10^12"
        yield Misuse("B18", ["the tree has %s nodes, one for each path from the root" % many])
    if lengths[draft.root] > PATH_MOST:
        path = [draft.root]
        while lengths[path[-1]] > 1:
            path.append(max(children_of(draft, path[-1]), key=lengths.__getitem__))
        yield Misuse("B18", ["a path has %d nodes: %s" % (len(path), ids_of(draft, path))])


def viewport_misuses(draft: Draft) -> Iterator[Misuse]:
    """A viewport that is the content of two nodes, in a tree that isn't too large."""
    shown: dict[int, list[int]] = {}
    waiting = [] if draft.root is None else [[draft.root]]
    while waiting:
        path = waiting.pop()
        content = draft.transforms[path[-1]].content
        if content is not None and draft.contents[content].sort == "viewport":
            if content in shown:
                made = draft.contents[content]
                yield Misuse("B19", ["%s of the pair %s is at the nodes %s and %s" % (draft.made(made), made.pair, ids_of(draft, shown[content]), ids_of(draft, path))])
                return
            shown[content] = path
        waiting += [[*path, child] for child in reversed(children_of(draft, path[-1]))]


def present_misuses(draft: Draft, acquire: list[str], release: list[str]) -> Iterator[Misuse]:
    """The reasons of a present, lowest first."""
    cycle = find_cycle(draft)
    if cycle is not None:
        yield Misuse("B17", ["the path from the root is %s" % ids_of(draft, cycle)])
        return
    too_large = list(size_misuses(draft))
    yield from too_large
    if not too_large:
        yield from viewport_misuses(draft)
    for name, fences in (("acquire", acquire), ("release", release)):
        if len(fences) > FENCES_MOST:
            yield Misuse("B22", ["%d %s fences are given" % (len(fences), name)])
