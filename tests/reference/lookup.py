"""The lookup of one polynomial: document 01, "Turned back", the paragraph on the lookup. It counts those of all right sides."""

from reading import walk_certificate, walk_system
from words import Refusal

IN_SYSTEM, IN_CERTIFICATE = 0, 1


def look_up(system_words, certificate_words, of, number):
    """Polynomial `number` of the system or of the certificate, from its start word to its last coefficient: the place of the first
    word, the place behind the last, and the words; or a refusal.

    System and certificate are both read, whichever is asked for; number 12 is tried after that.
    """
    systems, system_walk = walk_system(system_words)
    certificate_walk = walk_certificate(certificate_words, systems)[1]
    if of == IN_SYSTEM:
        words, parts = system_words, system_walk.parts
    else:
        words, parts = certificate_words, certificate_walk.parts
    if number >= len(parts):
        raise Refusal(12, 0)
    first, behind = parts[number]
    return first, behind, words[first:behind]
