"""The store of access-list entries in PostgreSQL, and the command `spki-store`."""
