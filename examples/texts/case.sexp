(case
 (acl (entry (public-key (test a)) (tag (ftp host))))
 (accepted)
 (sequence)
 (key (public-key (test a)))
 (request (ftp host dir))
 (at "2024-01-01_00:00:00"))
