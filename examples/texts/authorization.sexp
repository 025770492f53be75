(cert
 (issuer (public-key (test a)))
 (subject (public-key (test b)))
 (propagate)
 (tag (ftp (host "ftp.example.org") (dir "/pub")))
 (valid (not-before "2024-01-01_00:00:00") (not-after "2024-12-31_23:59:59")))
