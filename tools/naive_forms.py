#!/usr/bin/env python3
"""Writes the random descriptions that crates/outlines reads, and what it has to print for them.

The answers are worked out as docs/LANGUAGE.md and docs/FORMS.md say it and in the plainest way: as trees, with sets of
whole role paths and a fixpoint. Nothing here is shared with the crate forms. Run it from the top of the repository.
"""
import collections
import random
import sys

THING, NOTHING, PRIM, WITHIN, AND, ALL, AT_LEAST, AT_MOST, ENTRY = range(9)
LOWEST, HIGHEST = -2**31, 2**31 - 1
PLACES = 8
MOST_ROWS = 128
# Trees larger than this are not tried.
MOST_TREE = 20000
SEED = 1807

Node = collections.namedtuple('Node', 'op which count left right low high')
Row = collections.namedtuple('Row', 'parent role lower upper atoms low high')
# What is held at a place: the tree, and how many rows its form has.
Held = collections.namedtuple('Held', 'tree rows')


# The checks and the weights.

def bad_field(node):
    if node.op == PRIM:
        return node.which > 63
    if node.op == ALL:
        return node.which > 15
    if node.op in (AT_LEAST, AT_MOST):
        return node.which > 15 or node.count > 999
    return False


def operands(node):
    return {AND: [node.left, node.right], ALL: [node.left]}.get(node.op, [])


def weigh(nodes, held):
    weights = []
    for node in nodes:
        if node.op == ENTRY:
            weights.append(held[node.which].rows)
        elif node.op in (AT_LEAST, AT_MOST):
            weights.append(2)
        else:
            weights.append(1 + sum(weights[i] for i in operands(node)))
    return weights[-1]


def refusal(nodes, held):
    """The number and the detail of the first check that declines, or None."""
    if not 1 <= len(nodes) <= 128:
        return 2, 0
    for i, node in enumerate(nodes):
        if node.op > 8:
            return 3, i
        if bad_field(node):
            return 4, i
        if any(operand >= i for operand in operands(node)):
            return 5, i
        if node.op == ENTRY and node.which >= len(held):
            return 6, i
    if weigh(nodes, held) > 128:
        return 7, 0
    return None


# The tree of a table.

def tree_of(nodes, held):
    trees = []
    for node in nodes:
        if node.op == ENTRY:
            trees.append(held[node.which].tree)
        else:
            trees.append((node, [trees[i] for i in operands(node)]))
    return trees[-1]


def size(tree):
    """How many nodes the tree has; it stops past MOST_TREE."""
    total, waiting = 0, [tree]
    while waiting and total <= MOST_TREE:
        total += 1
        waiting.extend(waiting.pop()[1])
    return total


def statements(tree):
    """What is said in the tree, each with the role path at which it is said."""
    said, waiting = [], [((), tree)]
    while waiting:
        path, (node, below) = waiting.pop()
        if node.op in (ALL, AT_LEAST, AT_MOST):
            path += (node.which,)
        said.append((path, node))
        waiting.extend((path, part) for part in below)
    return said


# The form of a tree.

class Path:
    """What is written at one role path."""

    def __init__(self, said):
        self.nothing = any(node.op == NOTHING for node in said)
        self.atoms = {node.which for node in said if node.op == PRIM}
        spans = [node for node in said if node.op == WITHIN]
        ends = {LOWEST, HIGHEST} | {end for span in spans for end in (span.low, span.high)}
        # A meet that is not empty has ends of its parts as its own.
        within = [end for end in ends if all(span.low <= end <= span.high for span in spans)]
        self.empty = not within
        self.low, self.high = (min(within), max(within)) if within else (1, 0)
        self.lower = max([node.count for node in said if node.op == AT_LEAST], default=0)
        self.upper = min([node.count for node in said if node.op == AT_MOST], default=None)


def below(path, paths):
    return [other for other in paths if len(other) == len(path) + 1 and other[:len(path)] == path]


def dead_paths(paths):
    """The least set that the definition of dead paths allows."""
    dead = set()

    def upper(path):
        return 0 if path in dead else paths[path].upper

    def too_many(path):
        return upper(path) is not None and paths[path].lower > upper(path)

    while True:
        more = {path for path, at in paths.items()
                if at.nothing or at.empty or any(too_many(other) for other in below(path, paths))}
        if more == dead:
            return dead
        dead = more


def written(tree):
    """The paths that are written, with what is written there."""
    said = collections.defaultdict(list, {(): []})
    for path, node in statements(tree):
        said[path].append(node)
    return {path: Path(nodes) for path, nodes in said.items()}


def form(tree):
    """The rows of the finished form, or None where the tree is contradictory."""
    paths = written(tree)
    dead = dead_paths(paths)
    if () in dead:
        return None
    shut = {path for path, at in paths.items() if path and (path in dead or at.upper == 0)}
    left = sorted(path for path in paths if not any(path[:n] in shut for n in range(len(path))))
    rows = []
    for path in left:
        at = paths[path]
        parent, role = (left.index(path[:-1]), path[-1]) if path else (0, 0)
        if path in shut:
            rows.append(Row(parent, role, at.lower, 0, 0, LOWEST, HIGHEST))
        else:
            atoms = sum(2**atom for atom in at.atoms)
            rows.append(Row(parent, role, at.lower, at.upper, atoms, at.low, at.high))
    return rows


def answer(nodes, held):
    """A refusal, 'contradictory', or the rows of the form."""
    declined = refusal(nodes, held)
    if declined:
        return declined
    rows = form(tree_of(nodes, held))
    return 'contradictory' if rows is None else rows


def is_form(found):
    return isinstance(found, list)


def printed(found):
    if found == 'contradictory':
        return ['contradictory', '']
    if not is_form(found):
        return ['refused %d %d' % found, '']
    return ['%d %d %d %s %x %d %d' % (*row[:3], '-' if row.upper is None else row.upper, *row[4:])
            for row in found] + ['']


# Random tables.

class Table:
    """A table under way, with the weights of its nodes."""

    def __init__(self, chance, held, style):
        self.chance, self.held, self.style = chance, held, style
        self.nodes, self.weights = [], []

    def add(self, op, weight, which=None, count=None, left=None, right=None, span=None):
        """Fields that are not used hold anything."""
        noise = self.style['noise']
        any_byte = lambda: self.chance.randrange(256) if self.chance.random() < noise else 0
        low, high = span if span else (any_byte(), any_byte())
        fields = [any_byte() if field is None else field for field in (which, count, left, right)]
        self.nodes.append(Node(op, *fields, low, high))
        self.weights.append(weight)
        return len(self.nodes) - 1

    def role(self):
        return self.chance.choice(self.style['roles'])

    def span(self):
        if self.chance.random() < 0.03:
            return self.chance.choice([(LOWEST, HIGHEST), (LOWEST, 0), (0, HIGHEST), (HIGHEST, HIGHEST),
                                       (LOWEST, LOWEST), (HIGHEST, LOWEST)])
        reach = self.style['reach']
        low = self.chance.randint(-reach, reach // 4)
        high = self.chance.randint(-reach // 4, reach)
        if self.chance.random() < self.style['empty']:
            low, high = max(low, high) + 1, min(low, high)
        return min(low, HIGHEST), max(high, LOWEST)

    def leaf(self):
        kinds = self.style['leaves']
        op = self.chance.choices([THING, NOTHING, PRIM, WITHIN], kinds)[0]
        if op == PRIM:
            return self.add(op, 1, which=self.chance.randrange(64))
        if op == WITHIN:
            return self.add(op, 1, span=self.span())
        return self.add(op, 1)

    def count(self):
        op = self.chance.choices([AT_LEAST, AT_MOST], self.style['counts'])[0]
        counts = self.style['least' if op == AT_LEAST else 'most']
        return self.add(op, 2, which=self.role(), count=self.chance.choice(counts))

    def both(self, left, right):
        if self.chance.random() < 0.5:
            left, right = right, left
        return self.add(AND, 1 + self.weights[left] + self.weights[right], left=left, right=right)

    def all(self, role, operand):
        return self.add(ALL, 1 + self.weights[operand], which=role, left=operand)

    def entry(self, place):
        return self.add(ENTRY, self.held[place].rows, which=place)

    def fitting_places(self, budget):
        return [place for place, held in enumerate(self.held) if held.rows <= budget]

    def grow(self, budget):
        """A node of at most that weight."""
        places = self.fitting_places(budget)
        if places and self.chance.random() < self.style['entries']:
            return self.entry(self.chance.choice(places))
        light = [i for i, weight in enumerate(self.weights) if budget // 3 <= weight <= budget]
        if light and self.chance.random() < self.style['shared']:
            return self.chance.choice(light)
        if budget < 2 or self.chance.random() < self.style['short']:
            return self.leaf()
        shape = self.chance.choices(['and', 'all', 'count'], self.style['shapes'])[0]
        if shape == 'count' and budget < 12 or budget == 2:
            return self.count()
        if shape == 'all' or budget == 2:
            return self.all(self.role(), self.grow(budget - 1))
        part = self.chance.randint(1, budget - 2)
        left = self.grow(part)
        return self.both(left, self.grow(budget - 1 - self.weights[left]))


def style(chance, **given):
    """How a random table is made."""
    found = dict(
        roles=chance.choice([[0], [0, 1], [0, 1, 2], [3, 7, 15], list(range(16))]),
        noise=chance.choice([0, 0, 0, 0.3]),
        reach=chance.choice([3, 20, 1000]),
        empty=0.01, short=0.03, entries=0.03, shared=0.15,
        leaves=[2, 0.2, 6, 4], counts=[1, 1], shapes=[5, 5, 2],
        least=[0, 0, 1, 1, 2, 3, 5, 999], most=[0, 1, 2, 3, 4, 5, 7, 50, 999])
    found.update(given)
    return found


def plain(chance, held):
    table = Table(chance, held, style(chance, noise=chance.choice([0, 0.3, 1])))
    table.grow(chance.choice([3, 8, 15, 30, 50]))
    return table.nodes


def large(chance, held):
    roles = chance.choice([[0, 1], [0, 1, 2, 3], list(range(16))])
    table = Table(chance, held, style(chance, roles=roles, leaves=[2, 0.05, 6, 2], empty=0, reach=1000,
                                      least=[0, 0, 1, 2], most=[0, 2, 3, 9, 999]))
    table.grow(chance.choice([90, 128, 128]))
    return table.nodes


def tight(chance, held):
    """Few roles and narrow bounds: dead paths, shut paths, contradictions."""
    table = Table(chance, held, style(chance, roles=chance.choice([[0], [0, 9], [4, 5, 6]]), reach=2,
                                      leaves=[1, 1, 4, 6], empty=0.05, shapes=[6, 4, 4],
                                      least=[0, 1, 1, 2], most=[0, 1, 2, 999]))
    table.grow(chance.choice([10, 20, 40]))
    return table.nodes


def naming(chance, held):
    """Entries beside and below one another."""
    table = Table(chance, held, style(chance, entries=0.4, shapes=[5, 3, 1], leaves=[2, 0.1, 6, 1],
                                      roles=chance.choice([[0, 1], [0, 1, 2]])))
    table.grow(chance.choice([10, 40, 128]))
    return table.nodes


def chain(chance, held):
    """A path with nothing possible at its end, and fillers asked for along the last part of it."""
    table = Table(chance, held, style(chance, noise=0, entries=0, leaves=[1, 0, 5, 0]))
    depth = chance.randint(2, 18)
    asked = chance.randint(0, depth - 1) if chance.random() < 0.8 else depth
    node = table.add(NOTHING, 1) if chance.random() < 0.5 else table.add(WITHIN, 1, span=(1, 0))
    for step in range(depth):
        role = table.role()
        if chance.random() < 0.4:
            node = table.both(node, table.leaf())
        node = table.all(role, node)
        if step < asked:
            least = table.add(AT_LEAST, 2, which=role, count=chance.randint(1, 3))
            node = table.both(node, least)
    return table.nodes


def twigs(chance, held):
    """A full tree of paths, by nodes that are shared."""
    table = Table(chance, held, style(chance, noise=0, entries=0, leaves=[1, 0, 4, 1], empty=0, reach=1000))
    roles = chance.sample(range(16), chance.choice([2, 2, 3, 4]))
    node = table.leaf()
    while (table.weights[node] + 1) * len(roles) + len(roles) - 1 <= 128:
        top = table.all(roles[0], node)
        for role in roles[1:]:
            top = table.both(top, table.all(role, node))
        node = top
    if table.weights[node] <= 125:
        count = table.count() if chance.random() < 0.5 else table.leaf()
        table.both(node, count)
    return table.nodes


def line_down(chance, held, depth=None):
    """One ALL below another."""
    table = Table(chance, held, style(chance, noise=0))
    depth = depth or chance.choice([40, 90, 126, 127])
    fit = table.fitting_places(128 - depth)
    node = table.entry(chance.choice(fit)) if fit and chance.random() < 0.5 else table.leaf()
    for _ in range(depth):
        node = table.all(table.role(), node)
    return table.nodes


def broad(chance, held):
    """Counts of many roles."""
    table = Table(chance, held, style(chance, roles=list(range(16)), noise=0, counts=[3, 2],
                                      least=[0, 1, 2, 3], most=[0, 3, 4, 5, 999]))
    node = table.count()
    for _ in range(chance.randint(5, 30)):
        part = table.count()
        if chance.random() < 0.3:
            part = table.all(table.role(), part)
        node = table.both(node, part)
    return table.nodes


def pruned(chance, held):
    """Shut roles with paths below them, and open ones after those."""
    table = Table(chance, held, style(chance, noise=0, roles=[0, 1, 2], empty=0, leaves=[2, 0, 6, 2], reach=1000,
                                      least=[0, 0, 1, 2], most=[2, 3, 4, 999]))
    node = table.leaf()
    for role in chance.sample(range(16), 4):
        part = table.all(role, table.grow(20))
        if chance.random() < 0.4:
            shut = table.add(AT_MOST, 2, which=role, count=0)
            part = table.both(part, shut if chance.random() < 0.5 else table.all(role, table.add(NOTHING, 1)))
        node = table.both(node, part)
    for _ in range(chance.randrange(4)):
        node = table.all(table.role(), node)
    return table.nodes


def entry_alone(chance, held):
    """One entry, or one below a role, or two together."""
    table = Table(chance, held, style(chance))
    if not held:
        return plain(chance, held)
    node = table.entry(chance.randrange(len(held)))
    for _ in range(chance.randrange(3)):
        if chance.random() < 0.5:
            node = table.all(table.role(), node)
        else:
            node = table.both(node, table.entry(chance.randrange(len(held))))
    return table.nodes


def raw(chance, held):
    """Fields that nobody chose."""
    def node(i):
        return Node(chance.randrange(10), chance.choice([0, 1, 5, 15, 16, 63, 64]), chance.choice([0, 1, 999, 1000]),
                    chance.randrange(i + 2), chance.randrange(i + 2), chance.randint(-5, 5), chance.randint(-5, 5))
    return [node(i) for i in range(chance.randint(1, 8))]


def heavy(chance, held):
    """Weights at the bound and far past it."""
    table = Table(chance, held, style(chance, noise=0, entries=0))
    kind = chance.randrange(3)
    if kind == 0:
        node = table.leaf()
        for _ in range(chance.choice([7, 8, 20, 127])):
            node = table.both(node, node)
    elif kind == 1:
        line_table = line_down(chance, [], chance.choice([127, 126]))
        return line_table[:-1] + [line_table[-1]._replace(op=AND, left=len(line_table) - 2, right=0)]
    else:
        node = table.leaf()
        while table.weights[node] < 129:
            node = table.both(node, table.grow(chance.randint(1, 20)))
    return table.nodes


def length(chance, held):
    return [Node(PRIM, chance.randrange(64), 0, 0, 0, 0, 0)] * chance.choice([0, 0, 128, 129, 129, 256, 300])


def spoilt(chance, held):
    """A table with one or two faults, perhaps in a node that nothing uses."""
    nodes = list(plain(chance, held))
    for _ in range(chance.choice([1, 1, 1, 2])):
        i = chance.randrange(len(nodes))
        nodes[i] = nodes[i]._replace(**chance.choice([
            dict(op=chance.choice([9, 10, 255])),
            dict(op=PRIM, which=chance.choice([64, 255])),
            dict(op=ALL, which=chance.choice([16, 255]), left=max(0, i - 1)),
            dict(op=AT_LEAST, which=0, count=chance.choice([1000, 65535])),
            dict(op=AT_MOST, which=chance.choice([3, 16]), count=1000),
            dict(op=AND, left=chance.choice([0, i]), right=i),
            dict(op=AND, left=i + 1, right=0),
            dict(op=ALL, which=chance.choice([0, 16]), left=chance.choice([i, i + 1, 255])),
            dict(op=ENTRY, which=len(held)),
            dict(op=ENTRY, which=chance.choice([len(held) + 1, 255])),
        ]))
    return nodes


def with_unused(chance, held):
    """Most nodes belong to descriptions that the last one does not use."""
    table = Table(chance, held, style(chance))
    table.grow(20)
    table.grow(20)
    table.grow(20)
    return table.nodes


# The run.

class Run:
    """The descriptions so far, with their answers, and what is held."""

    def __init__(self, chance):
        self.chance, self.held, self.tables, self.answers, self.trees = chance, [], [], [], []

    def answer(self, nodes):
        """The answer, or None for a tree that is too large."""
        if refusal(nodes, self.held) is None and size(tree_of(nodes, self.held)) > MOST_TREE:
            return None
        return answer(nodes, self.held)

    def put(self, nodes, found):
        self.tables.append(nodes)
        self.answers.append(found)
        if is_form(found) or found == 'contradictory':
            self.trees.append(tree_of(nodes, self.held))
        if is_form(found) and len(self.held) < PLACES:
            self.held.append(Held(self.trees[-1], len(found)))

    def draw(self, make, fits):
        """Puts the first table made so whose answer fits."""
        while True:
            nodes = make(self.chance, self.held)
            found = self.answer(nodes)
            if found is not None and fits(found):
                return self.put(nodes, found)


def closed(found):
    return sum(row.upper == 0 for row in found)


def deepest(nodes):
    """How many roles the longest path has that the table writes without its entries."""
    depths = []
    for node in nodes:
        own = node.op in (ALL, AT_LEAST, AT_MOST)
        depths.append(own + max((depths[i] for i in operands(node)), default=0))
    return depths[-1]


def make_run(chance):
    run = Run(chance)
    no_form = lambda found: not is_form(found)
    rows = lambda least, most, shut=0: lambda found: (
        is_form(found) and least <= len(found) <= most and closed(found) >= shut)
    # What is held, with refusals and contradictions between; the fourth fills its place.
    for make, fits in [(plain, rows(1, 1)), (tight, rows(3, 6, 1)), (large, rows(12, 24, 1)),
                       (lambda chance, held: line_down(chance, [], 127), rows(128, 128)), (naming, rows(8, 20, 1)),
                       (twigs, rows(30, 60)), (chain, rows(3, 12, 1)), (tight, rows(2, 5, 2))]:
        for other in chance.sample([spoilt, tight, heavy, raw], 2):
            run.draw(other, no_form)
        run.draw(make, fits)
    any_answer = lambda found: True
    contradictory = lambda found: found == 'contradictory'
    for make, number in [(plain, 30), (large, 20), (tight, 40), (pruned, 20), (naming, 35), (chain, 20), (twigs, 6), (line_down, 4),
                         (broad, 12), (entry_alone, 15), (raw, 15), (heavy, 10), (length, 8), (spoilt, 35),
                         (with_unused, 6)]:
        for _ in range(number):
            run.draw(make, any_answer)
    for make, number in [(tight, 20), (naming, 15), (large, 5), (chain, 10), (plain, 10)]:
        for _ in range(number):
            run.draw(make, contradictory)
    for make, number in [(chain, 10), (tight, 15), (naming, 5)]:
        for _ in range(number):
            run.draw(make, rows(4, 128, 2 if make is not chain else 1))
    return run


def kind_of(found):
    if is_form(found):
        return 'form'
    return found if found == 'contradictory' else 'refused %d' % found[0]


def shares(nodes):
    """Whether a node is the operand of two, or twice of one."""
    used = [operand for node in nodes for operand in operands(node)]
    return len(used) > len(set(used))


def dead_of(trees):
    """All dead paths of the trees, and those with no cause of their own."""
    found, without_cause = [], []
    for paths in map(written, trees):
        dead = dead_paths(paths)
        found.extend(dead)
        without_cause.extend(path for path in dead if not (paths[path].nothing or paths[path].empty))
    return found, without_cause


def summary(run):
    forms = [found for found in run.answers if is_form(found)]
    passing = [nodes for nodes, found in zip(run.tables, run.answers) if kind_of(found) in ('form', 'contradictory')]
    dead, by_rows_below = dead_of(run.trees)
    kinds = collections.Counter(map(kind_of, run.answers))
    print(len(run.tables), 'descriptions;', ', '.join('%s: %d' % item for item in sorted(kinds.items())))
    print('kept:', ' '.join(str(held.rows) for held in run.held), 'rows')
    print('of those that pass: %d name entries, %d share nodes; most nodes %d, largest tree %d, longest path %d' % (
        sum(any(node.op == ENTRY for node in nodes) for nodes in passing), sum(map(shares, passing)),
        max(map(len, passing)), max(map(size, run.trees)), max(map(deepest, passing))))
    print('rows: %d, most in a form %d, closed %d, of these not below row 0 %d' % (
        sum(map(len, forms)), max(map(len, forms)), sum(map(closed, forms)),
        sum(row.upper == 0 and row.parent > 0 for found in forms for row in found)))
    print('dead paths: %d, by a role below %d, longest %d' % (
        len(dead), len(by_rows_below), max(map(len, dead))))


def main():
    run = make_run(random.Random(SEED))
    with open('crates/outlines/stdin', 'w') as out:
        for nodes in run.tables:
            out.writelines(' '.join(map(str, node)) + '\n' for node in nodes)
            out.write('\n')
    with open('crates/outlines/stdout', 'w') as out:
        for found in run.answers:
            out.writelines(line + '\n' for line in printed(found))
    summary(run)


if __name__ == '__main__':
    sys.exit(main())
