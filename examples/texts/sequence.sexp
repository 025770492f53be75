(sequence
 (public-key (test a))
 (do hash sha256)
 (cert (issuer (public-key (test a))) (subject (public-key (test b))) (tag (*)))
 (signature (hash sha256 |GKw+c0PwFokMUQ6T+TUmEWnZ4/VlQ2Qpgw+vCTT0+OQ=|) (public-key (test a)) sig))
