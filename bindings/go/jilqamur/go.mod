module jilqamur

go 1.19
