(3:abcdef4:ghij"k"5:lmnop#71#r)
