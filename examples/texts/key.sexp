(public-key (test a))
