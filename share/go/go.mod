module distnode

go 1.19
