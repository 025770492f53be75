module conguraki/spki

go 1.19
