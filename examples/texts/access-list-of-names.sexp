(acl (version "0")
 (entry (name (public-key (test a)) friends bob) (tag (http (* prefix "http://example.org/~bob/")))
  (not-after "2025-06-30_12:00:00"))
 (entry (hash sha1 #c7faef576e4bbc3072dc5fd6f3be059ebf622b33#) (comment nobody knows) (tag (* set read write "read only"))))
