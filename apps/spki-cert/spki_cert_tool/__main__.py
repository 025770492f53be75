"""`python3 -m spki_cert_tool` is `spki-cert`."""
from .commands import run

run()
