(a Z a9 - . / _ : * + = -1 .5 /usr/bin/env a_b a:b x=y a+b *=* _0 +0 :0: a3:bcd
 text/plain abcdefghijklmnopqrstuvwxyzABCDEFGHIJKLMNOPQRSTUVWXYZ0123456789-./_:*+=)
