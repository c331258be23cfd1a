"""Calls: functions of the source, whose vectors and structures are passed by their numbers, and built-in ones."""
from . import built_in, types
from .cells import cells_of
from .constants import constant
from .context import Step
from .notes import Refused
from .pointers import is_plain
from .tokens import in_source
from .tree import stripped
from .types import Pointer, Scalar, Struct, Vector


class Calls:
    """The part of the lowering that writes calls."""

    def call(self, node, context):
        """A call whose value is a number, or that has none."""
        if node.symbol is not None:
            return self.own_call(node, context)
        if isinstance(node.type, types.Void) or node.name in ('any', 'all'):
            return getattr(self, 'rewrite_' + self.kind_of(node.name))(node, context)
        found = built_in.CONVERT.match(node.name)
        if found:
            return self.rewrite_convert(node, found, context)
        rewrite = getattr(self, 'rewrite_' + node.name, None)
        if rewrite is not None:
            self.notes.add('%s written out' % node.name, node.token)
            return rewrite(node, context)
        return [node.token, '(', self.arguments(node.arguments, context), ')']

    def kind_of(self, name):
        """Which rewriting a function without a value has."""
        if name in built_in.BARRIERS or name in built_in.FENCES:
            return 'barrier'
        return name if name in ('any', 'all', 'prefetch', 'wait_group_events') else 'store'

    def arguments(self, nodes, context):
        """The texts of arguments."""
        texts = []
        for text in self.in_order(nodes, context, self.value):
            texts += [', ', text] if texts else [text]
        return texts

    def own_call(self, node, context, result=None):
        """A call of a function of the source; `result` is the array that its vector or structure is put into."""
        parameters = self.parameters_of(node)
        alternatives = []
        texts = [result] if result is not None else []
        for number, (argument, kind) in enumerate(zip(node.arguments, parameters)):
            mark = len(context.steps)
            more = self.argument(argument, kind, context, alternatives, node, number)
            if len(context.steps) > mark:
                self.keep_arguments(node, number, texts, context, mark, 0 if result is None else 1)
            texts += more
        return self.called(node, texts, alternatives)

    def keep_arguments(self, node, number, texts, context, mark, at):
        """Keeps earlier arguments that are numbers in front of the steps of a later one."""
        behind, context.steps = context.steps[mark:], context.steps[:mark]
        for earlier, kind in zip(node.arguments[:number], self.parameters_of(node)):
            width = self.width(kind)
            if types.is_number(kind) and not self.is_stable(earlier, node.arguments[number]):
                texts[at] = context.keep(texts[at], kind)
            at += width
        context.steps += behind

    def width(self, kind):
        """How many parameters a parameter becomes."""
        if isinstance(kind, Vector):
            return kind.count
        return len(list(types.leaves(kind))) if isinstance(kind, Struct) else 1

    def parameters_of(self, node):
        """The types of the parameters of a called function."""
        return node.symbol.type.parameters

    def argument(self, node, kind, context, alternatives, call, number):
        """The texts of one argument."""
        if isinstance(kind, Vector):
            return self.vector_argument(node, kind, context)
        if isinstance(kind, Struct):
            return self.struct_parts(node, context)
        if isinstance(kind, Pointer):
            return [self.pointer_argument(node, kind, context, alternatives, call, number)]
        return [self.converted(node, kind, context)]

    def vector_argument(self, node, kind, context):
        """A vector as an argument: its components."""
        self.notes.add('vectors as parameters are passed by their components', node.token)
        if not isinstance(node.type, Vector):
            return [self.once(node, Scalar(kind.base), context)] * kind.count
        if node.type != kind:
            raise Refused(node.token, 'an argument of another type of vectors', 'vector_conversion')
        parts = self.split(node, context)
        if any(not isinstance(part, (str, list)) for part in parts) or len(str(parts)) > 400:
            parts = self.kept(kind, parts, context)
        return parts

    def pointer_argument(self, node, kind, context, alternatives, call, number):
        """A pointer as an argument."""
        parameter = call.symbol.node.parameters[number] if call.symbol.node is not None else None
        wanted = cells_of(kind.to, kind.space) if parameter is None or parameter.cells is None else parameter.cells
        if self.is_native(node) and is_plain(kind.to) and wanted.name == types.spelled(kind.to):
            return self.native(node, context)
        found = self.pointer(node, context)
        if found.cells.name != wanted.name or found.cells.size != wanted.size:
            raise Refused(node.token, 'a pointer to other numbers than the parameter has', 'pointer_cast')
        if found.which is None:
            return found.pointer(node.token)
        alternatives.append((found.which, [found.bases, found.index.text()]))
        return ['\0%d' % (len(alternatives) - 1)]

    def called(self, node, texts, alternatives):
        """The text of a call; where pointers lead to one of several objects, a choice among calls."""
        def filled(chosen):
            """The call with one object for each of the pointers."""
            parts = []
            for text in texts:
                parts += [', '] if parts else []
                if isinstance(text, list) and len(text) == 1 and isinstance(text[0], str) and text[0][:1] == '\0':
                    number = int(text[0][1:])
                    bases, index = alternatives[number][1]
                    parts.append([bases[chosen[number]], ' + (', index, ')'])
                else:
                    parts.append(text)
            return [self.name_of(node), '(', parts, ')']

        def among(chosen):
            """A choice among the objects of the next pointer."""
            if len(chosen) == len(alternatives):
                return filled(chosen)
            which, (bases, _) = alternatives[len(chosen)]
            text = among(chosen + [len(bases) - 1])
            for number in range(len(bases) - 2, -1, -1):
                text = ['(', which, ' == %d ? ' % number, among(chosen + [number]), ' : ', text, ')']
            return text
        if alternatives and isinstance(node.type, types.Void):
            self.as_number(node.symbol)
        return among([])

    def name_of(self, node):
        """The name that is called: of a kernel that is called it is that of its function."""
        if node.symbol.node is not None and node.symbol.node.is_kernel:
            self.notes.add('a kernel that is called is a function too', node.token)
            node.symbol.is_called = True
            return [node.symbol.out + '_called']
        return [in_source(node.token, node.symbol.out)]

    def call_vector(self, node, context):
        """A call whose value is a vector; its components."""
        if node.symbol is None:
            return self.built_in_vector(node, context)
        self.notes.add('a function that returns a vector stores it through a pointer', node.token)
        name = context.variable(node.type, 1)
        text = self.own_call(node, context, name)
        context.steps.append(Step(text))
        self.made[name + '[0]'] = node.type
        return ['%s[0].s%x' % (name, number) for number in range(node.type.count)]

    def rewrite_barrier(self, node, context):
        """Barriers and fences."""
        name = node.token
        if node.name == 'work_group_barrier':
            name = 'barrier'
            self.notes.add('work_group_barrier is barrier', node.token)
        flags = node.arguments[0] if node.arguments else None
        found = constant(flags) if flags is not None else None
        if found is not None:
            self.notes.add('flags of a barrier written as names', node.token)
            names = [word for bit, word in ((1, 'CLK_LOCAL_MEM_FENCE'), (2, 'CLK_GLOBAL_MEM_FENCE')) if found[0] & bit]
            return [name, '(', ' | '.join(names or ['CLK_LOCAL_MEM_FENCE']), ')']
        return [name, '(', self.value(flags, context), ')']

    def rewrite_prefetch(self, node, _):
        """`prefetch` changes nothing."""
        self.notes.add('prefetch left out', node.token)
        return []

    def rewrite_wait_group_events(self, node, _):
        """All items wait until their copies are done."""
        self.notes.add('wait_group_events is a barrier', node.token)
        return 'barrier(CLK_LOCAL_MEM_FENCE | CLK_GLOBAL_MEM_FENCE)'

    def event(self, node, context):
        """A copy by a group, each item of which copies a part; the event is dropped."""
        inner = stripped(node)
        if inner.kind == 'assign':
            inner = stripped(inner.right)
        if inner.kind in ('name', 'number', 'cast', 'list'):
            return []
        if inner.kind != 'call' or inner.name not in ('async_work_group_copy', 'async_work_group_strided_copy'):
            raise Refused(node.token, 'an event of this form', 'copy_by_a_group')
        return self.copy_by_group(inner, context)

    def copy_by_group(self, node, context):
        """The loop with which each item of a group copies its part."""
        to, source = (self.pointer(each, context, True) for each in node.arguments[:2])
        if to.which is not None or source.which is not None or to.cells.name != source.cells.name:
            raise Refused(node.token, 'a copy among pointers of this form', 'copy_by_a_group')
        if context.is_part:
            raise Refused(node.token, 'a copy by a group inside an expression', 'copy_by_a_group')
        self.notes.add('async_work_group_copy is a loop in which each item copies a part', node.token)
        count = context.keep(self.value(node.arguments[2], context), types.ULONG)
        each, steps = to.cells.count(to.kind), {}
        if node.name.endswith('strided_copy'):
            if each > 1:
                raise Refused(node.token, 'a copy with steps of this form', 'copy_by_a_group')
            strided = to if to.space == 'global' else source
            steps[strided] = context.keep(self.value(node.arguments[3], context), types.ULONG)
        at = context.variable(types.ULONG)
        to_text, source_text = (['%s[' % found.bases[0], found.index.plus(self.index_of(
            '%s * %s' % (at, steps[found]) if found in steps else at)).text(), ']'] for found in (to, source))
        context.steps.append(Step(None, [
            'for (%s = %s; %s < %s%s; %s += %s) ' % (at, LOCAL_LINEAR, at, '%dUL * ' % each if each > 1 else '', count,
                                                     at, GROUP_SIZE), to_text, ' = ', source_text, ';']))
        return []

    def once_all(self, nodes, kinds, context):
        """Numbers that may be written several times each."""
        return [self.once(node, kind, context) for node, kind in zip(nodes, kinds)]


LOCAL_LINEAR = '(get_local_id(2) * get_local_size(1) + get_local_id(1)) * get_local_size(0) + get_local_id(0)'
GROUP_SIZE = 'get_local_size(0) * get_local_size(1) * get_local_size(2)'
