("one\
two" "one\
two" "one\two" "one\
two" "one\

two" "one\
two" "one\

two" 6"one\
two")
