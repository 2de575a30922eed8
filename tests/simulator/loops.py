"""An order of the cells and, in what no order takes, the loops themselves: refusal 9."""

from simulator.reading import Refused


def links(netlist):
    """For each cell the cells that it names and the cells that name it, once for each pin."""
    names = [[net - netlist.inputs for net in nets if net >= netlist.inputs] for nets in netlist.cells]
    users = [[] for _ in names]
    for j, named in enumerate(names):
        for other in named:
            users[other].append(j)
    return names, users


def ordered(names, users):
    """The cells in an order in which each comes after those that it names.

    Cells on a loop, and cells that hang from one, have no place in it.
    """
    waits = list(map(len, names))
    order = [j for j, wait in enumerate(waits) if wait == 0]
    for j in order:
        for user in users[j]:
            waits[user] -= 1
            if waits[user] == 0:
                order.append(user)
    return order


def left_over(names, users):
    """The cells that the order leaves: those on loops and those that hang from one."""
    return set(range(len(names))).difference(ordered(names, users))


def done_with(cells, users):
    """The cells in the order in which a walk from user to user is done with them."""
    met, done = set(), []
    for start in cells:
        path = [] if start in met else [(start, iter(users[start]))]
        met.add(start)
        while path:
            j, coming = path[-1]
            user = next((user for user in coming if user not in met), None)
            if user is None:
                done.append(j)
                path.pop()
            else:
                met.add(user)
                path.append((user, iter(users[user])))
    return done


def spread(start, links_of, within):
    """The cells that are met from a cell along links, staying within some cells."""
    met, edge = {start}, [start]
    while edge:
        following = within.intersection(links_of[edge.pop()]) - met
        met |= following
        edge += following
    return met


def loops(names, users):
    """The cells on loops, in sets of cells that all reach one another.

    Of what the order leaves, the cell that the walk is done with last is reached from no other
    set, so going back along names meets its own set and nothing else; without that set the next
    one follows. A set of one cell is a loop only if the cell names itself.
    """
    left = left_over(names, users)
    found = []
    for j in reversed(done_with(sorted(left), users)):
        if j in left:
            together = spread(j, names, left)
            left -= together
            if len(together) > 1 or j in names[j]:
                found.append(together)
    return found


def lowest_on_a_loop(names, users):
    return min(map(min, loops(names, users)))


def cell_order(netlist):
    """An order of all cells; refusal 9, with the lowest net that reaches itself, if there is none."""
    names, users = links(netlist)
    order = ordered(names, users)
    if len(order) < len(names):
        raise Refused(9, netlist.inputs + lowest_on_a_loop(names, users))
    return order
