(acl
 (entry (public-key (test a)) (tag (ftp host)))
 (entry (public-key (test b)) (propagate) (tag (*))))
