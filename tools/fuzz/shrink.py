"""The smallest input that is still found at fault: lines are taken out, more and more of them, and then bytes of the lines that are left."""


def smallest(parts, is_at_fault):
    """Takes out parts, at first half of them at once, while the rest is at fault."""
    size = max(len(parts) // 2, 1)
    while size:
        at = 0
        while at < len(parts):
            rest = parts[:at] + parts[at + size :]
            if is_at_fault(rest):
                parts = rest
            else:
                at += size
        size //= 2
    return parts


def shrunk(data, is_at_fault):
    """The smallest input found from one that is at fault."""
    lines = smallest(data.split(b"\n"), lambda lines: is_at_fault(b"\n".join(lines)))
    text = b"\n".join(lines)
    return bytes(smallest(list(text), lambda it: is_at_fault(bytes(it)))) if len(text) < 2_000 else text
