|ZQ=|
