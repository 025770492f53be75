(a ; remark
 b)
