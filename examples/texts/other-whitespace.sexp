(abc)
