"""Item 1: names."""


def elem(name):
    """What follows the last `/`."""
    return name[name.rfind(b'/') + 1:]


def kstrcpy(name):
    """Up to 27 bytes and zeros; a longer name is cut and `...` follows."""
    if len(name) > 27:
        cut = 24
        while cut > 0 and 128 <= name[cut] <= 191:
            cut -= 1
        name = name[:cut] + b'...'
    return name + bytes(28 - len(name))
