(|YQ==| |YWI=| |YWJj| |+/+/| |////| |AAAA| | Y W I = | |YW
Jj
YW	Jj| |YQ==| 1|YQ==| 2|YWI=| 3|YWJj|)
