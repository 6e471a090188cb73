module examples

go 1.19

require cukvashe v0.1.0

replace cukvashe => ../../bindings/go
