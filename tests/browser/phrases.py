"""A few phrases as the page has them, for sentences that are compared word by word."""


def counted(number, one):
    """1 tick, 2 ticks, 65,535 tokens."""
    return "%s %s" % (format(number, ","), one if number == 1 else one + "s")


def lasting(sfd, lfd):
    """How long an activity takes."""
    if lfd == 0:
        return "takes no time"
    return "takes exactly " + counted(lfd, "tick") if sfd == lfd else "takes %d to %s" % (sfd, counted(lfd, "tick"))
