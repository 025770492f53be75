; remark
(a)
