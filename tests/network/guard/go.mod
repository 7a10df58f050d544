module capvet.invalid/load

go 1.19
