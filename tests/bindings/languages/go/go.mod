module capvet.invalid/say

go 1.19

require capvet.invalid/capvet v0.0.0

replace capvet.invalid/capvet => ../../../../bindings/go
