module conguraki/spki-authd

go 1.19

require conguraki/spki v0.2.0

replace conguraki/spki => ../../bindings/go
