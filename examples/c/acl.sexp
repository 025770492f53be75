(acl (entry (public-key (test a)) (propagate) (tag (*))))
