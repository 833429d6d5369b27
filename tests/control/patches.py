"""Merge patches (RFC 7386) and JSON patches (RFC 6902), as an API server applies them.

Neither changes what it is given: the result shares the parts that stay.
"""


class Malformed(Exception):
    """No such patch: 400."""


class Refused(Exception):
    """A patch that doesn't fit the object, or whose test fails: 422."""


def merged(target, patch):
    """The target after a merge patch."""
    if not isinstance(patch, dict):
        return patch
    result = dict(target) if isinstance(target, dict) else {}
    for name, value in patch.items():
        if value is None:
            result.pop(name, None)
        else:
            result[name] = merged(result.get(name), value)
    return result


def pointer(text):
    """The steps of a JSON pointer."""
    if text == "":
        return []
    if not isinstance(text, str) or not text.startswith("/"):
        raise Malformed(f"no JSON pointer: {text!r}")
    return [step.replace("~1", "/").replace("~0", "~") for step in text[1:].split("/")]


def place_in(items, step, most):
    """A place in a list."""
    if not step.isdigit() or int(step) > most:
        raise Refused(f"no place in a list: {step!r}")
    return int(step)


def value_at(node, steps):
    """The value that a pointer names."""
    for step in steps:
        if isinstance(node, dict) and step in node:
            node = node[step]
        elif isinstance(node, list):
            node = node[place_in(node, step, len(node) - 1)]
        else:
            raise Refused(f"no such member: {step!r}")
    return node


def edited(node, steps, change):
    """The node with the container of the last step changed: change(container, step)."""
    if len(steps) == 1:
        if not isinstance(node, (dict, list)):
            raise Refused(f"no such member: {steps[0]!r}")
        copy = node.copy()
        change(copy, steps[0])
        return copy
    inner = edited(value_at(node, steps[:1]), steps[1:], change)
    copy = node.copy()
    copy[int(steps[0]) if isinstance(node, list) else steps[0]] = inner
    return copy


def put_in(value, is_new):
    """The change that adds a value, or replaces the one that is there."""

    def change(container, step):
        if isinstance(container, dict):
            if not is_new and step not in container:
                raise Refused(f"nothing to replace: {step!r}")
            container[step] = value
        elif is_new:
            at = len(container) if step == "-" else place_in(container, step, len(container))
            container.insert(at, value)
        else:
            container[place_in(container, step, len(container) - 1)] = value

    return change


def take_out(container, step):
    """The change that removes a value."""
    if isinstance(container, dict):
        if step not in container:
            raise Refused(f"nothing to remove: {step!r}")
        del container[step]
    else:
        del container[place_in(container, step, len(container) - 1)]


def tested(target, steps, value):
    """Refuses the patch where the value at a place isn't this one; null also means absent."""
    try:
        found = value_at(target, steps)
    except Refused:
        found = None
    if found != value:
        raise Refused(f"testing path /{'/'.join(steps)} value failed")


def applied(target, operations):
    """The target after a JSON patch."""
    if not isinstance(operations, list):
        raise Malformed("a JSON patch is a list")
    for operation in operations:
        if not isinstance(operation, dict) or not isinstance(operation.get("path"), str):
            raise Malformed("an operation has a path")
        what, steps = operation.get("op"), pointer(operation["path"])
        if what == "test":
            tested(target, steps, operation.get("value"))
        elif what not in ("add", "replace", "remove"):
            raise Malformed(f"no such operation: {what!r}")
        elif not steps:
            raise Refused("the whole object isn't patched")
        elif what == "remove":
            target = edited(target, steps, take_out)
        else:
            target = edited(target, steps, put_in(operation.get("value"), what == "add"))
    return target
