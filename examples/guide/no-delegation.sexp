(case
 (acl
  (entry (public-key (test alice)) (propagate)
   (tag (packages (* set read write) (* prefix /builds/))))
  (entry (public-key (test bob))
   (tag (packages read (* set /manuals/cook.pdf /manuals/bake.pdf)))))
 (accepted
  (by (public-key (test alice)) (hash sha256 #bf43015fdc3f48b89ed1219dce1c1cc456469e0df50469ecd686af66a8d8dca2#) signed-by-alice)
  (by (public-key (test carol)) (hash sha256 #49d6656b5e7cc6961a1d3708e033f32c8d8ad5ff7a0ec0e7ce57b3f39a0e6d98#) signed-by-carol))
 (sequence
  (cert
   (issuer (public-key (test alice)))
   (subject (public-key (test carol)))
   (tag (packages read (* prefix /builds/web/)))
   (not-after "2026-06-30_23:59:59"))
  (signature (hash sha256 #bf43015fdc3f48b89ed1219dce1c1cc456469e0df50469ecd686af66a8d8dca2#)
   (public-key (test alice)) signed-by-alice)
  (cert
   (issuer (public-key (test carol)))
   (subject (public-key (test bob)))
   (tag (packages read)))
  (signature (hash sha256 #49d6656b5e7cc6961a1d3708e033f32c8d8ad5ff7a0ec0e7ce57b3f39a0e6d98#)
   (public-key (test carol)) signed-by-carol))
 (key (public-key (test bob)))
 (request (packages read /builds/web/index.html))
 (at "2026-03-01_12:00:00")
 (policy strict))
