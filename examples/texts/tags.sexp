(tags (*) ftp (ftp (host a)) (* set a (* prefix ab) (* set)) (* prefix "")
 (* range alpha ge b l m) (* range time ge "09:00:00" le "17:00:00")
 (* range date g "2024-01-01_00:00:00"))
