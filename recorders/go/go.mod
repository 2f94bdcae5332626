module recorders

go 1.19
