(a {MTph})
