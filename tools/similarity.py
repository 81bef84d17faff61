"""The Jaro similarity of two words, by which `clap` finds the command that an unknown one was meant to be."""


def jaro(one: str, other: str) -> float:
    """Returns how similar two words are, from 0 to 1, by the same operations on floats as the crate `strsim`.

    Two letters match if they are the same and no further apart than half the longer word, less one. Each letter of the
    first word takes the first free match in the second. Matches in another order count against the similarity.
    """
    if one == other:
        return 1.0
    reach = max(max(len(one), len(other)) // 2 - 1, 0)
    taken: set[int] = set()
    kept = []
    for at, letter in enumerate(one):
        near = range(max(at - reach, 0), min(at + reach + 1, len(other)))
        found = next((it for it in near if other[it] == letter and it not in taken), None)
        if found is not None:
            taken.add(found)
            kept.append(letter)
    count = len(kept)
    if not count:
        return 0.0
    turned = sum(letter != other[at] for letter, at in zip(kept, sorted(taken))) // 2
    return (count / len(one) + count / len(other) + (count - turned) / count) / 3.0
