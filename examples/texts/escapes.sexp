("\b\t\n\f\r" "\"" "\'" "\?" "\\" "say \"yes\"\n" "back\\slash" 6"\"four\"")
