"""Plans of many stores: for each word that is loaded, what it gives."""

from collections.abc import Iterable

# The load that it comes before, the word, and the value.
Store = tuple[int, int, int]


def planned(half: int) -> tuple[list[Store], list[int]]:
    """A plan for twice as many words: a store to word 2m or 2m + 1, right before load 2m or 2m + 1, by the remainder of m by 4. One in
    four comes too late for its word; each other one gives that word 1,000,000 + m in place of its number. The stores, and what each
    word gives."""
    stores: list[Store] = []
    values = list(range(2 * half))
    for m in range(half):
        load, word = 2 * m + (m % 4 >= 2), 2 * m + m % 2
        stores.append((load, word, 1_000_000 + m))
        if load <= word:
            values[word] = 1_000_000 + m
    return stores, values


def stores_of(stores: Iterable[Store]) -> str:
    return ",".join('[%d,%d,"%s"]' % (load, word, value.to_bytes(8, "little").hex()) for load, word, value in stores)


def message_of(bytes_of_message: int) -> str:
    return "typedef struct _E { UINT64 x { true }; } E; entrypoint typedef struct _P { E e[:byte-size %d]; } P;" % bytes_of_message


def stretches_input(words: int, times: int) -> tuple[bytes, str]:
    """A message that is a memory of so many words, so many times over, all of which are loaded, while before each second load others store
    to a word; and the report."""
    loads = words * times
    stores: list[Store] = []
    memory, report = [0] * words, "accept %d\n" % (8 * loads)
    for load in range(loads):
        if load % 2 == 0:
            stores.append((load, 7 * (load // 2) % words, load // 2 + 1))
            memory[stores[-1][1]] = stores[-1][2]
        report += "load %d %d %016x\n" % (load // words, load % words, memory[load % words])
    stretches = ",".join(["[0,%d]" % (8 * words)] * times)
    given = 8 * loads, "00" * (8 * words), stretches, stores_of(stores)
    job = '{"entry":"P","length":%d,"bytes":"%s","stretches":[%s],"stores":[%s]}' % given
    return ("%s\n%%%%\n%s\n" % (message_of(8 * loads), job)).encode(), report


def plan_input(half: int) -> tuple[bytes, str]:
    """A message whose words all are loaded while others store by such a plan, which isn't given in its order; and the report."""
    stores, values = planned(half)
    given = [stores[m * 40_501 % half] for m in range(half)]
    listed = stores_of(given)
    content = b"".join(word.to_bytes(8, "little") for word in range(2 * half)).hex()
    module = message_of(16 * half)
    job = '{"entry":"P","length":%d,"bytes":"%s","stores":[%s]}' % (16 * half, content, listed)
    report = "accept %d\n" % (16 * half) + "".join("load %d %016x\n" % load for load in enumerate(values))
    return ("%s\n%%%%\n%s\n" % (module, job)).encode(), report
