(cert (display plain)(issuer (hash sha1 |x/rvV25LvDBy3F/W874Fnr9iKzM=|))
 (issuer-info "http://ca.example/")(subject (name bob))(subject-info "mailto:bob@example.org")
 (tag (*))(comment "issued by hand; \"as is\"" [text/plain]"no warranty"))
