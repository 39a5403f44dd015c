"""The lists that are measured, and the scripts and expressions that are made from them.

Nine lists over a book of fifteen groups, as published for the design that access lists come from, and some lists
that are meant to be as slow as any list can be."""

PUBLISHER = ".singularity.microsoft.com"
PARTIAL_NAME = r"[A-Za-z0-9_-]+(?:\.[A-Za-z0-9_-]+)*"


def program(word):
    return word + PUBLISHER


NAME = program("login") + "@ted+" + program("shell") + "+" + program("SecBVT") + "@write"

GROUPS = {
    "$auth-privilege": "|".join(program(word) for word in ["login", "sshd", "console"]),
    "$test-privilege": program("SecBVT"),
    "$rg-privilege": "|".join(program(word) for word in ["tcpd", "fsd", "dsd"]),
    "$app": "!|{$user}",
    "$login": "{$auth-privilege}",
    "$user": "{$auth-privilege}@!",
    "$any": "{$app}(+!)*",
    "$anyuser": "{$user}(+!)*",
    "$anyuserall": "{$anyuser}@!",
    "$dsregister": "(({$any}+)*{$rg-privilege})@register",
    "$dsanyr": "{$any}@(read)",
    "$dsanyrw": "{$any}@(read|write|notify)",
    "$grp5": "|".join(["ted"] + ["user%d" % i for i in range(4)]),
    "$grp10": "|".join(["user%d" % i for i in range(9)] + ["ted"]),
    "$grp20": "|".join(["user%d" % i for i in range(19)] + ["ted"]),
}

LISTS = [
    "{$anyuserall}",
    "{$any}+{$test-privilege}@write",
    "{$any}(+!.microsoft.com)*@!",
    "{$dsanyrw}",
    "{$dsanyrw}|{$dsregister}",
    "{$dsanyr}|{$login}@ted(+!.microsoft.com)*@write",
    "{$dsanyr}|{$login}@{$grp5}(+!.microsoft.com)*@write",
    "{$dsanyr}|{$login}@{$grp10}(+!.microsoft.com)*@write",
    "{$dsanyr}|{$login}@{$grp20}(+!.microsoft.com)*@write",
]


def flat(text):
    """The list as a regular expression, every group spelled out."""
    out, i = "", 0
    while i < len(text):
        byte = text[i]
        if byte == "{":
            end = text.index("}", i)
            out += "(?:" + flat(GROUPS[text[i + 1:end]]) + ")"
            i = end
        elif byte == "(":
            out += "(?:"
        elif byte == "!":
            out += PARTIAL_NAME
        elif byte in ".+":
            out += "\\" + byte
        else:
            out += byte
        i += 1
    return out


def filled(piece, room):
    """As many pieces as there is room for."""
    return piece * (room // len(piece))


def chained(piece):
    """A list and 32 groups, each full of a piece and naming the next."""
    names = ["g%02d" % i for i in range(32)]
    groups = {}
    for i, name in enumerate(names):
        rest = "{%s}" % names[i + 1] if i + 1 < len(names) else ""
        groups[name] = filled(piece, 512 - len(rest)) + rest
    return groups, filled(piece, 512 - 5) + "{g00}"


LONGEST_NAME = ".".join(["a"] * 32)

# what fills the texts of the lists that are meant to be slow: the more stars, and the more places they lead to, the slower
SLOW = [
    "a*",
    "!*",
    "!",
    "a.",
    "(a|.)*",
    "(!|.)*",
    "(a*.*)*",
    "(a.a|.a.)*",
    "!" + "*" * 250,
    "((.*!)*+(!.*)*)" + "*" * 480,
    "(" * 16 + "a*" + ")*" * 16,
    "(" * 16 + "a.a|.a." + ")*" * 16,
]


def script(groups, name, text, count):
    """A script that puts the groups into the book and matches the name against the list so many times."""
    lines = ["group\t%s\t%s" % row for row in groups.items()]
    lines += ["match\t%s\t%s" % (name, text)] * count
    return ("\n".join(lines) + "\n").encode()
