module rates

go 1.19

require jilqamur v0.0.0

replace jilqamur => ../../../bindings/go/jilqamur
