"""The limits of a kernel with all that it calls: E419, E420, E421 and E423.

A unit with vectors is measured as it stands; the compiler measures the unit without vectors that it makes of it, and
refuses sooner. Comparisons leave E419 and E420 of such units out."""
from .numbers import SIZE
from .refusals import SourceRefused
from .tree import LOOPS, all_nodes

MOST_NODES = 16384
MOST_PRIVATE_BYTES = 16384
MOST_AROUND_A_BARRIER = 16
MOST_LOCAL_BYTES = 65536


class Measures:
    """The measures of the functions of a unit."""

    def __init__(self, functions, calls):
        self.functions = functions
        self.callees = {}
        for caller, callee, _ in calls:
            self.callees.setdefault(caller.text, []).append(callee)
        self.nodes_of, self.bytes_of, self.depths_of = {}, {}, {}

    def nodes(self, function):
        """The nodes of a function with all that it calls."""
        if function.text not in self.nodes_of:
            own = sum(1 for _ in all_nodes(function.node.block))
            called = sum(self.nodes(self.functions[each]) for each in self.callees.get(function.text, []))
            self.nodes_of[function.text] = own + called
        return self.nodes_of[function.text]

    def private_bytes(self, function):
        """The private bytes of a function with all that it calls."""
        if function.text not in self.bytes_of:
            own = 8 * len(function.variables)
            own += sum(each.count * SIZE[each.element] for each in function.arrays if each.space == 'private')
            called = sum(self.private_bytes(self.functions[each]) for each in self.callees.get(function.text, []))
            self.bytes_of[function.text] = own + called
        return self.bytes_of[function.text]

    def barriers(self, function):
        """Whether a function holds a barrier, and how many statements are around one."""
        if function.text not in self.depths_of:
            self.depths_of[function.text] = self.barriers_in(function.node.block)
        return self.depths_of[function.text]

    def barriers_in(self, node):
        """The same for a node, which learns whether it holds one."""
        found = [self.barriers_in(part) for part in node.parts]
        if node.form == 'call' and node.kind == 'function':
            found.append(self.barriers(self.functions[node.text]))
        holds = any(each[0] for each in found)
        depth = max((each[1] for each in found), default=0)
        if node.form == 'call' and node.kind == 'fence' and node.text == 'barrier':
            holds = True
        if holds and (node.form in LOOPS or node.form in ('if', 'switch')):
            depth += 1
        node.has_barrier = holds
        return holds, depth


def check_limits(checker, kernel):
    """Refuses a kernel that is beyond a limit; notes its local bytes, and which nodes hold a barrier."""
    measures = Measures(checker.functions, checker.calls)
    kernel.local_bytes = sum(each.count * SIZE[each.element] for each in kernel.locals)
    numbers = []
    if measures.nodes(kernel) > MOST_NODES:
        numbers.append(419)
    if measures.private_bytes(kernel) > MOST_PRIVATE_BYTES:
        numbers.append(420)
    if measures.barriers(kernel)[1] > MOST_AROUND_A_BARRIER:
        numbers.append(421)
    if kernel.local_bytes > MOST_LOCAL_BYTES:
        numbers.append(423)
    if numbers:
        raise SourceRefused(min(numbers), *checker.place(kernel.node.first))
