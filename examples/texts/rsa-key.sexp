(public-key
 (rsa-pkcs1-sha1
  (e #010001#)
  (n |AMWQ/hh5XG0cMtp28dYZ0XYZaO5AgqEZXykWn97iev89mpTD+gBQwG4uITAZ
    THvaA2SlJCF437iDuKKmb1e1TYwQSu2JKbfCo6pYx0O0gdSptpwu6Nk5Dayk
    3uTf8pT0zCqqGUpMogaI7YZrlljwErjKoWuLlnY6gj6vBwVTZRYi|)))
