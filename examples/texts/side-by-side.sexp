("a"b#63##64#|ZQ==|f"g"(h)[i]j(k(l)()m)n)
