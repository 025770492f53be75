(case
 (acl
  (entry (public-key (test alice)) (propagate)
   (tag (packages (* set read write) (* prefix /builds/))))
  (entry (public-key (test bob))
   (tag (packages read (* set /manuals/cook.pdf /manuals/bake.pdf)))))
 (accepted
  (by (public-key (test alice)) (hash sha256 #bf43015fdc3f48b89ed1219dce1c1cc456469e0df50469ecd686af66a8d8dca2#) signed-by-alice))
 (sequence
  (cert
   (issuer (public-key (test alice)))
   (subject (public-key (test carol)))
   (tag (packages read (* prefix /builds/web/)))
   (not-after "2026-06-30_23:59:59"))
  (signature (hash sha256 #bf43015fdc3f48b89ed1219dce1c1cc456469e0df50469ecd686af66a8d8dca2#)
   (public-key (test alice)) signed-by-alice))
 (key (public-key (test carol)))
 (request (packages read /builds/web/index.html))
 (at "2026-03-01_12:00:00")
 (policy strict))
