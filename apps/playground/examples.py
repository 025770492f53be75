"""The questions to pick from: the guide's story, a group, each cause of a no once, an empty list and a mistake. All but the first are the story with
something changed."""

ALICE, BOB, CAROL = (f"(public-key (test {name}))" for name in ("alice", "bob", "carol"))
LABELS = f"Alice {ALICE}\nBob {BOB}\nCarol {CAROL}"
ACL = f"""(acl
 (entry {ALICE} (propagate)
  (tag (packages (* set read write) (* prefix /builds/))))
 (entry {BOB}
  (tag (packages read (* set /manuals/cook.pdf /manuals/bake.pdf)))))"""
TO_CAROL = f""" (cert
  (issuer {ALICE})
  (subject {CAROL})
  (tag (packages read (* prefix /builds/web/)))
  (not-after "2026-06-30_23:59:59"))"""
# The digest of this certificate, and of Alice's key.
DIGEST = "(hash sha256 #bf43015fdc3f48b89ed1219dce1c1cc456469e0df50469ecd686af66a8d8dca2#)"
ALICE_BY_HASH = "(hash sha256 #0368c1992558bdb83ef3d36b9b41700d9dd8a7a57769aa960f3555cc92f6ec69#)"
TO_BOB = f""" (cert
  (issuer {CAROL})
  (subject {BOB})
  (tag (packages read)))"""
TO_BUILDERS = f""" (cert
  (issuer {ALICE})
  (subject (name builders))
  (tag (packages write (* prefix /builds/))))"""


def sequence(*items):
    """The text of a sequence with these items, which are texts."""
    return "(sequence\n" + "\n".join(items) + ")"


def defining(name):
    """The text of a certificate by which Alice defines `name` as Carol: what the name may do, Carol may do."""
    return f" (cert\n  (issuer (name {ALICE} {name}))\n  (subject {CAROL})\n  (not-after \"2026-12-31_23:59:59\"))"


def signature(signer, value):
    """The text of a signature of the certificate TO_CAROL. `signer` is the text of a key, and `value` any word: the page verifies none."""
    return f"  (signature {DIGEST}\n   {signer} {value})"


STORY = {"acl": ACL, "sequence": sequence(TO_CAROL), "key": CAROL, "request": ["packages", "read", "/builds/web/index.html"],
         "at": "2026-03-01_12:00:00", "labels": LABELS, "refused": [], "strict": True}
WRITE = ["packages", "write", "/builds/web/index.html"]


def example(name, group, wanted, **changed):
    """An example: its name, the group in which the page lists it, the line of `explain` or the refusal that the answer has first, and the question,
    which is STORY with the fields `changed` in place of its own."""
    return {"name": name, "group": group, "wanted": wanted, "question": {**STORY, **changed}}


EXAMPLES = [
    example("Alice lets Carol read the web builds", "Yes", "entry 1 grants"),
    example("Carol is in Alice's group", "Yes", "entry 1 grants", sequence=sequence(TO_BUILDERS, defining("builders")), request=WRITE),
    example("The request is not in the right", "The right does not fit", "entry 1 TagLacks", request=WRITE),
    example("The right has ended", "The right does not fit", "entry 1 WindowLacks", at="2026-07-01_00:00:00"),
    example("Another key asks", "The right does not fit", "entry 1 NotTheKey", key=BOB),
    example("Carol must not pass it on", "The chain stops", "entry 1 item 3 NoDelegation", sequence=sequence(TO_CAROL, TO_BOB), key=BOB),
    example("A certificate is missing", "The chain stops", "entry 1 item 1 NotIssuer", sequence=sequence(TO_BOB), key=BOB),
    example("Another name is defined", "The chain stops", "entry 1 item 3 NotTheName", sequence=sequence(TO_BUILDERS, defining("testers")),
            request=WRITE),
    example("No moment is left", "The chain stops", "entry 1 item 1 NoValidity",
            sequence=sequence(TO_CAROL.replace("(not-after", "(not-before")),
            acl=ACL.replace("(propagate)\n", '(propagate) (not-after "2026-01-31_23:59:59")\n')),
    example("No request is left", "The chain stops", "entry 1 item 1 NoTag", sequence=sequence(TO_CAROL.replace("/builds/web/", "/plans/"))),
    example("The issuer's key is not shown", "A certificate fails", "item 1 KeyNotShown",
            sequence=sequence(TO_CAROL.replace(ALICE, ALICE_BY_HASH))),
    example("The certificate was changed", "A certificate fails", "item 1 DigestDiffers",
            sequence=sequence(TO_CAROL.replace("read", "write"), signature(ALICE, "signed-by-alice"))),
    example("Another key signed", "A certificate fails", "item 1 SignerDiffers", sequence=sequence(TO_CAROL, signature(BOB, "signed-by-bob"))),
    example("The signature is not valid", "A certificate fails", "item 1 NotAccepted",
            sequence=sequence(TO_CAROL, signature(ALICE, "signed-by-alice")), refused=[0]),
    example("The access list is empty", "Other", "no entries", acl="(acl)"),
    example("A field has a wrong name", "Other", "refused sequence 1 Shape", sequence=sequence(TO_CAROL.replace("not-after", "not-afer"))),
]

# What is in the other boxes at first. The whole case is that of the guide.
OTHERS = {"first": "(packages (* set read write) (* prefix /builds/))", "second": "(packages read (* prefix /builds/web/))",
          "words": "packages\nread\n/builds/web/index.html", "value": '(a "b c" #6 4# |ZQ==| [x]3:fgh)'}
