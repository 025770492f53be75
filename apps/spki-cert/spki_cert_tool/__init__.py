"""Makes, signs, shows and explains certificates and access lists of SPKI (RFC 2693), with the keys that people have.

The command `spki-cert` is in `commands`. The modules are tested and not proved, and decide nothing for a service.
"""
__version__ = "0.2.0"
