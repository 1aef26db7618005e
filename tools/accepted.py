"""Which images scripts take: those that are images, and whose code the second reading of the verifier's rules accepts."""

from reference.code import refusal

from .image import Code, Fault


class NotAccepted(Exception):
    """Why an image isn't taken."""


def code_of(image):
    """The tables of an image that is accepted, and has an entry point."""
    try:
        code = Code(image)
    except Fault as fault:
        place = "" if fault.code in ("I1", "I2") else " at %d" % fault.at
        raise NotAccepted("this is no image: %s%s: %s" % (fault.code, place, fault.what)) from None
    breach = refusal(code)
    if breach:
        raise NotAccepted("the verifier refuses the image: %s" % breach)
    if not code.entries:
        raise NotAccepted("the image has no entry point")
    return code
