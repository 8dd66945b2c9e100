module nizwarf

go 1.19
