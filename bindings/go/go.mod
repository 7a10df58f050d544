module capvet.invalid/capvet

go 1.19
