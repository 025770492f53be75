(|ZQ| |YWI|)
