(case
 (acl (entry (public-key (test a)) (propagate) (tag (*))))
 (accepted (by (public-key (test a)) (hash sha256 #d71ecfb335b8e4b04cb035426566a94e817a12cfcfa4dbf5b704b6cd670c7ad2#) sig))
 (sequence
  (cert (issuer (public-key (test a))) (subject (public-key (test b))) (tag (*)))
  (signature (hash sha256 #d71ecfb335b8e4b04cb035426566a94e817a12cfcfa4dbf5b704b6cd670c7ad2#) (public-key (test a)) sig))
 (key (public-key (test b))) (request (ftp)) (at "2024-01-01_00:00:00"))
