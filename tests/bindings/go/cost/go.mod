module capvet.invalid/cost

go 1.19

require capvet.invalid/capvet v0.0.0

replace capvet.invalid/capvet => ../../../../bindings/go
