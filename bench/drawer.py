"""Full drawers: a load beside one reading of the buffer in steps of 8 bytes, the other calls on the largest drawer, instructions per record, and
stack. The drawers are those of bench/src/bin/drawer.rs: all ids in one chain, spread over the 16 chains, and in one chain that jumps about in the
buffer (mixed); and, as somebody else might write it, one chain in which the ids fall."""
from measure import counted, heading, least, line, row, run, side, without_driver

ORDERS = ["chain", "spread", "mixed"]
SIZES = [1, 16, 256, 4096, 65536]
MOST = SIZES[-1]
# The other calls, by their names in a row: a save of an id that is there; an id forgotten, and saved as a new one into the record that is free then.
OTHERS = {"save": "save", "forget and save": "renew"}
# Records gone along in the calls of one round, and rounds.
STEPS, ROUNDS = 2**18, 25
# What passes. Of a load's instructions: those in one chain over those spread, and those per record of the largest drawer over those of the one
# before it. And less than so many bytes of stack.
MOST_OF_SPREAD, MOST_GROWTH, STACK_BELOW = 2, 1.05, 1000


def command(call, order, records, count, *mode):
    return [side("drawer"), call, order, str(records), str(count), *mode]


def nanoseconds(call, records, orders):
    """Per call, by orders, and per reading of the buffer."""
    count = max(1, STEPS // records)
    sides = [("nothing", "chain"), *((call, order) for order in orders), ("read", "chain")]
    times = least(ROUNDS, [command(*words, records, count) for words in sides])
    return [time / count for time in without_driver(times)]


def instructions(call, order, records=MOST):
    """Per record: what a second call takes."""
    of_two, of_one = (counted(*command(call, order, records, count)) for count in (2, 1))
    return (of_two - of_one) / records


def records_named(records):
    return f"{records:,} record{'s' if records > 1 else ''}"


def print_times():
    loads = {records: nanoseconds("load", records, ORDERS) for records in SIZES}
    for records, figures in loads.items():
        row(f"nanoseconds, load, {records_named(records)}", figures)
    for records, figures in loads.items():
        line(f"nanoseconds per record, {records_named(records)}", [figure / records for figure in figures], 1)
    for what, call in OTHERS.items():
        row(f"nanoseconds, {what}, {records_named(MOST)}", nanoseconds(call, MOST, ORDERS))


def print_instructions():
    """What a load takes in one chain over what it takes spread, and per record over what it takes in a smaller drawer, the most of the orders."""
    smaller, largest = ([instructions("load", order, records) for order in ORDERS] for records in SIZES[-2:])
    for records, figures in zip(SIZES[-2:], [smaller, largest]):
        row(f"instructions per record, load, {records:,}", [*figures, instructions("read", "chain", records)], 1)
    for what, call in OTHERS.items():
        row(f"instructions per record, {what}", [*(instructions(call, order) for order in ORDERS), instructions("read", "chain")], 1)
    by_order = dict(zip(ORDERS, largest))
    return by_order["chain"] / by_order["spread"], max(more / less for more, less in zip(largest, smaller))


def print_stack():
    """The bytes of stack that the deepest call takes, with the driver's few."""
    calls = [command(call, order, 256, 2, "stack") for call in ["lay", "load", *OTHERS.values()] for order in [*ORDERS, "falling"]]
    deepest = max(int(run(*words).stdout) for words in calls)
    line("bytes of stack, the deepest call", [deepest], 0)
    return deepest


def print_all():
    """Hands back what is to be failed for, each as whether it failed and the words."""
    print("full drawers, and one reading of their bytes")
    heading("", [*ORDERS, "read"], [f"{order} / read" for order in ORDERS])
    print_times()
    of_spread, growth = print_instructions()
    heading("", ["falling", "read"], ["falling / read"])
    for records in [256, 4096]:
        row(f"nanoseconds, load, {records_named(records)}", nanoseconds("load", records, ["falling"]))
    deepest = print_stack()
    return [
        (of_spread > MOST_OF_SPREAD, f"A LOAD IN ONE CHAIN TAKES MORE THAN {MOST_OF_SPREAD} TIMES THE INSTRUCTIONS OF ONE SPREAD"),
        (growth > MOST_GROWTH, "A LOAD'S INSTRUCTIONS GROW FASTER THAN THE RECORDS"),
        (deepest >= STACK_BELOW, f"A CALL ON A DRAWER TAKES {STACK_BELOW} BYTES OF STACK OR MORE"),
    ]
