(cert (version "0")
      (issuer (name (public-key (test a)) friends))
      (subject (name (hash sha256 #527cc61ebc48b4f34544a2607a6c7c6223568fa81a1c0a7dd52cdc59407feea2#) bob "the builder")))
