a"b"
