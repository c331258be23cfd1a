"""Cases that are left out, and known faults of other systems, each with the reason."""

DIVIDES = 'divides by zero, or the least value by -1'
ZEROS = 'rests on memory that starts as zeros'
WIDER = 'mixes a vector and a number of a wider type, which OpenCL refuses'

# Cases whose end OpenCL leaves open, or which it refuses: they rest on a choice of this project.
OWN_CHOICES = {
    'examples/pixels': WIDER,
    'examples/race': 'races',
    'tests/language/constants': DIVIDES,
    'tests/language/constants_computed_beforehand': DIVIDES,
    'tests/language/order_of_a_vector_statement': 'rests on the order in which a statement is evaluated',
    'tests/language/vector_in_loops': ZEROS,
    'tests/language/vector_operators': WIDER,
    'tests/rows/a_branch_that_a_constant_decides': DIVIDES,
    'tests/rows/all_items_of_a_chunk_load_before_one_stores': 'races',
    'tests/rows/division_by_zero_and_of_the_least_value': DIVIDES,
    'tests/rows/local_memory_starts_as_zeros_in_each_group': ZEROS,
    'tests/rows/store_that_is_never_reached': DIVIDES,
}

# Systems that are known to be wrong on a case, with the reason.
FAULTS = {
    ('pocl', 'tests/rows/barrier_that_nobody_reaches'): 'its compiler crashes on a barrier in a loop that varies',
    ('pocl', 'tests/rows/each_group_votes_by_itself'): 'it finds no kernel `all`, which is a function of OpenCL too',
}
