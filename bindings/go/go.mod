module jeihpal

go 1.19
