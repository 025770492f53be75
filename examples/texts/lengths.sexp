(3"abc" 3:abc 3#616263# 3|YWJj| 12"twelve chars" 12:twelve chars 2"\n\n" 1"\\")
