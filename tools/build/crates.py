"""The crates of a repository, as crates.txt lists them."""


def crates_in(top):
    """Returns each crate's name with the crates of the repository that it uses itself."""
    uses = {}
    with open(f"{top}/crates.txt", encoding="utf-8") as lines:
        for line in lines:
            name, colon, used = line.partition("#")[0].partition(":")
            if colon:
                uses[name.split()[0]] = used.split()
    return {name: [it for it in used if it in uses] for name, used in uses.items()}


def below(name, uses):
    """Returns the crates that a crate stands on, the lowest first."""
    found = []
    for used in uses[name]:
        found += [it for it in [*below(used, uses), used] if it not in found]
    return found
