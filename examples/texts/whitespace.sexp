 	
( 	
a	(
b 
[ 	x
] 
"c")
	 ) 
	